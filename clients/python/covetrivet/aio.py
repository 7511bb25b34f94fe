"""A server's session for asyncio: each call is awaited, and may be cancelled.

    async with covetrivet.aio.connect("shop.sock") as session:
        order = await session.submit(1, 7, 8)

Calls go out in the order in which they are made, many at once by asyncio.gather. One that is cancelled was
performed or not, and its answer is nobody's.
"""
from __future__ import annotations

import asyncio
import contextlib
import functools
import itertools
import os
import re
from collections.abc import Callable, Coroutine, Sequence
from types import TracebackType
from typing import Any, Concatenate, ParamSpec, TypeVar

from covetrivet import commands
from covetrivet.answers import Heard, NotUnderstood
from covetrivet.commands import Command
from covetrivet.conversation import PROTOCOL
from covetrivet.faults import Disconnected, SessionClosed
from covetrivet.lines import NOTICE
from covetrivet.remote import shown, token_line
from covetrivet.session import Path

T = TypeVar("T")
P = ParamSpec("P")
MOST = 1 << 16


def asked(command: Callable[P, Command[T]]) -> Callable[Concatenate[Session, P], Coroutine[Any, Any, T]]:
    """Returns the method that sends a command, and returns its answer or raises the refusal."""

    @functools.wraps(command)
    async def ask(session: Session, /, *args: P.args, **kwargs: P.kwargs) -> T:
        return await session.do(command(*args, **kwargs))

    return ask


class Waiting:
    """Who waits for an answer, and what of it has come."""

    def __init__(self) -> None:
        self.lines: list[str] = []
        self.due = 1
        self.answer: asyncio.Future[str] = asyncio.get_running_loop().create_future()

    def add(self, line: str) -> None:
        counted = None if self.lines else re.fullmatch(r"dumped (\d+)", line)
        self.due += int(counted[1]) if counted else 0
        self.lines.append(line)
        if len(self.lines) == self.due and not self.answer.done():
            self.answer.set_result("\n".join(self.lines))


class Session:
    """A session of a server's, in an `async with` block, once. It belongs to its event loop."""

    def __init__(self, paths: Sequence[Path], token: str | None) -> None:
        self._paths, self._token = paths, token
        self._numbers = itertools.count()
        self._waiting: dict[str, Waiting] = {}
        self._last = ""
        self._fault: Disconnected | None = None
        self._reading: asyncio.Task[None] | None = None
        self._writer: asyncio.StreamWriter | None = None

    # ---- its beginning and its end

    async def __aenter__(self) -> Session:
        if self._reading:
            raise SessionClosed("a session has one block, and this one has had it")
        found: list[str] = []
        for path in self._paths:
            try:
                await self._enter(os.fspath(path))
                return self
            except Disconnected as why:
                found.append(str(why) if len(self._paths) == 1 else f"{os.fspath(path)}: {why}")
                await self.close()
            except BaseException:
                await self.close()
                raise
        raise Disconnected("; ".join(found))

    async def _enter(self, path: str) -> None:
        try:
            reader, self._writer = await asyncio.open_unix_connection(path, limit=MOST)
        except OSError as fault:
            raise Disconnected(f"no server can be reached at {path}: {fault.strerror or fault}") from fault
        self._fault, self._last = None, ""
        self._reading = asyncio.create_task(self._read(reader))
        if self._token is not None:
            shown(await self._ask(token_line(self._token).decode("ascii")))
        answer = await self._ask("version")
        told = re.fullmatch(r"version \S+ lines (\d+)", answer)
        if not told or int(told[1]) < PROTOCOL:
            raise NotUnderstood(f"the server's lines aren't of version {PROTOCOL}: it answers {answer!r}")

    async def __aexit__(
        self, kind: type[BaseException] | None, fault: BaseException | None, trace: TracebackType | None
    ) -> None:
        await self.close()

    async def close(self) -> None:
        """Ends the connection. Closing what is closed does nothing."""
        writer, self._writer = self._writer, None
        if writer:
            writer.close()
            with contextlib.suppress(OSError):
                await writer.wait_closed()
        if self._reading:
            await asyncio.wait([self._reading])

    # ---- lines

    async def _read(self, reader: asyncio.StreamReader) -> None:
        """Hands each line to who waits for it, up to the end."""
        rest = b""
        with contextlib.suppress(OSError):
            while some := await reader.read(MOST):
                *lines, rest = (rest + some).split(b"\n")
                for it in lines:
                    self._hear(it.decode("latin-1"))
        last = self._last or rest.decode("latin-1")
        said = last.removeprefix(NOTICE) if last.startswith(NOTICE) else "the server has ended the connection"
        self._fault = Disconnected(said)
        for waiting in self._waiting.values():
            if not waiting.answer.done():
                waiting.answer.set_exception(Disconnected(said))

    def _hear(self, line: str) -> None:
        tag, _, text = line[1:].partition(" ")
        if line.startswith("@") and tag in self._waiting:
            self._waiting[tag].add(text)
        elif not line.startswith("@"):
            self._last = line

    async def _ask(self, line: str) -> str:
        if not self._writer:
            raise SessionClosed("the session is closed, or has not begun")
        if self._fault:
            raise Disconnected(*self._fault.args)
        tag = f"{next(self._numbers):08x}"
        waiting = self._waiting[tag] = Waiting()
        try:
            # (a whole line is taken at once, so none is torn where the call is cancelled)
            self._writer.write(f"@{tag} {line}\n".encode("ascii"))
            with contextlib.suppress(ConnectionError):
                await self._writer.drain()
            return await waiting.answer
        finally:
            del self._waiting[tag]

    async def do(self, command: Command[T]) -> T:
        """Sends one command. Returns its answer, or raises the refusal."""
        heard = Heard(await self._ask(command.line), command.line)
        heard.refused()
        return command.read(heard)

    submit = asked(commands.submit)
    claim = asked(commands.claim)
    claim_next = asked(commands.claim_next)
    take = asked(commands.take)
    commit = asked(commands.commit)
    abort = asked(commands.abort)
    join = asked(commands.join)
    leave = asked(commands.leave)
    turn = asked(commands.turn)
    prepare = asked(commands.prepare)
    drop = asked(commands.drop)
    kill = asked(commands.kill)
    cancel = asked(commands.cancel)
    requeue = asked(commands.requeue)
    release = asked(commands.release)
    read = asked(commands.read)
    reply = asked(commands.reply)
    collect = asked(commands.collect)
    family = asked(commands.family)
    errors = asked(commands.errors)
    register = asked(commands.register)
    send = asked(commands.send)
    receive = asked(commands.receive)
    last = asked(commands.last)
    last_work = asked(commands.last_work)
    forget = asked(commands.forget)
    count = asked(commands.count)
    depth = asked(commands.depth)
    holds = asked(commands.holds)
    waiting = asked(commands.waiting)
    balance = asked(commands.balance)
    total = asked(commands.total)
    account = asked(commands.account)
    drain = asked(commands.drain)
    drain_next = asked(commands.drain_next)
    dump = asked(commands.dump)


def connect(path: Path | Sequence[Path], token: str | None = None) -> Session:
    """Returns the session of the server at this socket, for an `async with` block. Paths, tokens and faults
    are as those of covetrivet.connect. Work is ended by `session.commit(name, .., work=work)`.
    """
    paths = [path] if isinstance(path, (str, os.PathLike)) else list(path)
    if not paths:
        raise ValueError("there is no path to connect to")
    return Session(paths, token)
