"""A session: the program as a child process, and each command as a call."""
from __future__ import annotations

import functools
import os
import re
import subprocess
import threading
import weakref
from collections.abc import Callable, Iterable, Iterator, Sequence
from types import TracebackType
from typing import Any, Concatenate, ParamSpec, TypeVar, Union

from covetrivet import commands, refusals
from covetrivet.answers import Heard
from covetrivet.batch import Batch, Later
from covetrivet.commands import Command
from covetrivet.conversation import Conversation
from covetrivet.faults import LogFault, SessionBroken, SessionClosed
from covetrivet.lines import beginning, checked, is_for_logs, pieces_of
from covetrivet.log import Log
from covetrivet.pipe import SECONDS_TO_END, Pipe
from covetrivet.program import find
from covetrivet.wire import Wire

NOT_BEGUN = "the session has not begun: it begins with its `with` block"
CLOSED = "the session is closed"
TORN = "the log may have lines that weren't sent: go on by Session.from_log"
T = TypeVar("T")
P = ParamSpec("P")
Path = Union[str, "os.PathLike[str]"]


def asked(command: Callable[P, Command[T]]) -> Callable[Concatenate[Session, P], T]:
    """Returns the method that sends a command, and returns its answer or raises the refusal."""

    @functools.wraps(command)
    def ask(session: Session, /, *args: P.args, **kwargs: P.kwargs) -> T:
        return session.do(command(*args, **kwargs))

    return ask


class Session:
    """A session, in a `with` block, once.

    `head` are the lines of its head. Commands may follow: they are performed anew. Where the head says what
    there is, as the lines of a dump do, the session goes on from there. The program is `program`, or that of
    COVETRIVET_PROGRAM, or the checkout's own (NoProgram where there is none). What it writes on standard
    error is shown there.

    **Threads.** Any thread may call any method, and so may a signal's handler, also in the midst of a call.
    An exchange that takes more than so many `seconds` is given up by TimeoutError (but for that of the
    beginning). One that is left, by this or by another exception, was done or not; its answer is nobody's.
    The process that made a session owns it, and a forked one can't use it.

    **Logs.** `log` names a file that isn't there yet. Each line is written into it before it is sent.
    Session.from_log goes on from it. Where an exception comes between the two, the log may have what the
    program hasn't: each later call raises SessionBroken, and Session.from_log goes on.

    **Journals.** A session of Session.open survives the end of its program, and of the machine.
    """

    def __init__(
        self,
        head: Iterable[str],
        program: Sequence[str] | Path | None = None,
        log: Path | None = None,
        seconds: float | None = None,
    ) -> None:
        self._head = [head] if isinstance(head, str) else list(head)
        self._program = program
        self._log_path = None if log is None else os.fspath(log)
        self._seconds = seconds
        self._goes_on = False
        self._owner = os.getpid()
        self._closed: str | None = NOT_BEGUN
        self._is_gone = False
        self._log: Log | None = None
        self._log_lock = threading.RLock()
        # whether the log has lines that weren't sent
        self._is_torn = False
        self._wire: Wire | None = None
        self._said: Conversation | None = None
        # how many lines a journal had, and how many with those that were sent since; how many bytes were cut
        # off behind them, of lines that a crash had torn
        self.recovered = self.lines = self.cut = 0
        # the registers of each server, once the session is closed
        self.finals: dict[str, tuple[int, ...]] = {}

    @classmethod
    def from_log(
        cls, path: Path, program: Sequence[str] | Path | None = None, seconds: float | None = None
    ) -> Session:
        """Returns a session that goes on from a log, and goes on with it. LogFault where there is no log, or
        another session has it open.
        """
        session = cls([], program, path, seconds)
        session._goes_on = True
        return session

    @staticmethod
    def open(
        path: Path,
        head: Iterable[str] | None = None,
        program: Sequence[str] | Path | None = None,
        seconds: float | None = None,
    ) -> Session:
        """Returns a session whose program has each line in the journal in this file, on the disk, before it
        is answered, unless it only asks. It stands where the journal's lines lead to, with work in hand;
        `recovered` says how many these are. Where there are none it begins with the head; else that isn't
        sent again.

        `lines` counts the journal's lines and those that were sent since. Where the program or this process
        ends, the next session's `recovered` is how many of them are kept: all that were answered, but for
        last ones that only asked, and maybe more, in their order. JournalFault where the journal can't be
        opened, or has no lines and no head is given.
        """
        from covetrivet.journal import Journaled

        return Journaled(path, head, program, seconds)

    # whether what has the session knows lines that wait
    WAITS = False

    # ---- its beginning and its end

    def __enter__(self) -> Session:
        if self._closed != NOT_BEGUN:
            raise SessionClosed("a session has one `with` block, and this one has had it")
        try:
            self._enter()
        except BaseException:
            self._let_go()
            raise
        return self

    def _enter(self) -> None:
        self._wire, lines = self._started()
        OPEN.add(self)
        self._said = Conversation(self._wire)
        self._closed = None
        self._begin(lines)

    def _started(self) -> tuple[Wire, list[str]]:
        """Returns the program, started, and the lines to begin with."""
        program = find(self._program)
        lines = self._opened()
        return Pipe(program), lines

    def _opened(self) -> list[str]:
        """Returns the lines to begin with, which are in the log, or will be."""
        if self._log_path and self._goes_on:
            self._log, lines = Log.of(self._log_path)
            return [checked(it) for it in lines]
        if self._log_path:
            Log.refuse_what_is_there(self._log_path)
        # (with a command behind the head: else the line of a worker that comes next would be one of the head)
        first, others = beginning([checked(it) for it in self._head])
        return [*first, *others]

    def _begin(self, lines: list[str]) -> None:
        """Sends the lines. A log begins once they are answered."""
        self._conversation().greet(self._seconds)
        self._send_beginning(lines, 0)
        if self._log_path and not self._log:
            self._log = Log.begun(self._log_path, lines)

    def _send_beginning(self, lines: list[str], known: int) -> None:
        """Sends the lines but for so many that are known. None of the head may be refused."""
        first, others = beginning(lines)
        for line, answer in zip(first[known:], self._exchange(first[known:], is_logged=False)):
            refused = re.fullmatch(r"refused line \d+: \d+ (\w+)", answer)
            if refused:
                raise refusals.BY_NAME[refused[1]](line)
        for piece in pieces_of(others[max(0, known - len(first)) :]):
            self._exchange(piece, is_logged=False)

    def __exit__(
        self, kind: type[BaseException] | None, fault: BaseException | None, trace: TracebackType | None
    ) -> None:
        try:
            self.close()
        except Exception:
            # What the block was left by says more.
            if kind is None:
                raise

    def close(self) -> None:
        """Ends the session. The registers of the servers are in `finals` then, and each later call raises
        SessionClosed. Closing what is closed does nothing.

        SessionEnded where the program ends by a fault that wasn't told yet. A program that doesn't end in
        `seconds`, or in 10 where there are none, is ended by TimeoutError.
        """
        if self._closed == NOT_BEGUN or self._is_gone or os.getpid() != self._owner:
            return
        # (one that was left half-way only lets go)
        is_open = not self._closed
        try:
            self._closed = CLOSED
            if is_open and self._said and not self._is_torn and not self._said.fault:
                for line in self._said.finish(SECONDS_TO_END if self._seconds is None else self._seconds):
                    _final, name, *values = line.split()
                    self.finals[name] = tuple(int(it) for it in values)
        finally:
            self._let_go()

    def _let_go(self) -> None:
        self._closed = CLOSED
        OPEN.discard(self)
        if self._said:
            self._said.let_go()
        elif self._wire:
            self._wire.end()
            self._wire.close_streams()
        if self._log:
            self._log.close()
        self._is_gone = True

    def forked(self) -> None:
        """In a forked process, closes its copies of what is open: else the program's input would end only
        with this process.
        """
        if self._wire:
            self._wire.close_streams()
        if self._log:
            self._log.close()

    @property
    def process(self) -> subprocess.Popen[bytes]:
        """The program's process. SessionClosed where the session has not begun, or is a server's."""
        if not isinstance(self._wire, Pipe):
            raise SessionClosed("the session's process is another one's" if self._wire else NOT_BEGUN)
        return self._wire.process

    # ---- calls

    def do(self, command: Command[T]) -> T:
        """Sends one command. Returns its answer, or raises the refusal."""
        (answer,) = self._exchange([command.line], wait=command.wait)
        return self._read(command, answer)

    def batch(self) -> Batch:
        """Returns a batch, in whose `with` block commands are added that are sent together."""
        return Batch(self._do_all)

    def all_waiting(self, stage: int) -> Iterator[int]:
        """Yields the id of each element that waits in a stage, once, by as many calls of `waiting` as it
        takes. What comes or goes meanwhile is among them or not.
        """
        start = 0
        while listed := self.waiting(stage, start):
            yield from listed
            start = listed[-1] + 1

    def shorten_log(self) -> None:
        """Has the log begin anew with a dump. LogFault where there is no log, or a new one can't be written:
        then the log goes on as it was.
        """
        with self._log_lock:
            self._shorten_log()

    submit = asked(commands.submit)
    claim = asked(commands.claim)
    claim_next = asked(commands.claim_next)
    take = asked(commands.take)
    commit = asked(commands.commit)
    abort = asked(commands.abort)
    join = asked(commands.join)
    leave = asked(commands.leave)
    turn = asked(commands.turn)
    prepare = asked(commands.prepare)
    drop = asked(commands.drop)
    kill = asked(commands.kill)
    cancel = asked(commands.cancel)
    requeue = asked(commands.requeue)
    release = asked(commands.release)
    read = asked(commands.read)
    reply = asked(commands.reply)
    collect = asked(commands.collect)
    family = asked(commands.family)
    errors = asked(commands.errors)
    register = asked(commands.register)
    send = asked(commands.send)
    receive = asked(commands.receive)
    last = asked(commands.last)
    last_work = asked(commands.last_work)
    forget = asked(commands.forget)
    count = asked(commands.count)
    depth = asked(commands.depth)
    holds = asked(commands.holds)
    waiting = asked(commands.waiting)
    balance = asked(commands.balance)
    total = asked(commands.total)
    account = asked(commands.account)
    drain = asked(commands.drain)
    drain_next = asked(commands.drain_next)
    dump = asked(commands.dump)

    # ---- parts of exchanges

    def _conversation(self) -> Conversation:
        """Returns what lines are sent by. SessionClosed where the session isn't open, or is another
        process's.
        """
        if os.getpid() != self._owner:
            raise SessionClosed(f"the session is process {self._owner}'s, and this is process {os.getpid()}")
        if self._closed or self._said is None:
            raise SessionClosed(self._closed or NOT_BEGUN)
        return self._said

    def _exchange(self, lines: Sequence[str], is_logged: bool = True, wait: int = 0) -> list[str]:
        """Sends lines and returns their answers, one for each. One may be there so many seconds later."""
        said = self._conversation()
        sent = [it.encode("ascii") for it in lines]
        self.lines += len(lines)
        if not (self._log and is_logged):
            return said.ask(sent, self._seconds + wait if self._seconds and is_logged else None)
        with self._log_lock:
            if self._is_torn:
                raise SessionBroken(TORN)
            self._is_torn = True
            self._log.write(filter(is_for_logs, lines))
            answers = said.ask(sent, self._seconds, self._mend)
        return answers

    def _mend(self) -> None:
        """What is in the log was sent."""
        self._is_torn = False

    def _do_all(self, asked: list[Later[Any]]) -> None:
        lines, wait = [it.command.line for it in asked], max(it.command.wait for it in asked)
        for later, answer in zip(asked, self._exchange(lines, wait=wait)):
            later.take(functools.partial(self._read, later.command, answer))

    def _read(self, command: Command[T], answer: str) -> T:
        heard = Heard(answer, command.line, self)
        heard.refused()
        return command.read(heard)

    def _in_hand(self) -> list[str]:
        """Returns the workers and servers that have a unit open, or have lost one."""
        return [it.name for it in self.do(commands.holds())]

    def _shorten_log(self) -> None:
        if self._log is None or self._log_path is None:
            raise LogFault("the session has no log")
        said, command = self._conversation(), commands.dump()
        if self._is_torn:
            raise SessionBroken(TORN)
        # (nothing may be done between the dump and the new log, as by a signal's handler)
        self._is_torn = True
        try:
            (answer,) = said.ask([command.line.encode("ascii")], self._seconds)
            log = Log.beside(self._log_path, self._read(command, answer).lines)
            log.put_in_place()
            self._log.close()
            self._log = log
        finally:
            self._is_torn = not self._log.is_in_place()


# Sessions that are open. A forked process lets go of them.
OPEN: weakref.WeakSet[Session] = weakref.WeakSet()


def let_all_go() -> None:
    for it in list(OPEN):
        it.forked()


os.register_at_fork(after_in_child=let_all_go)
