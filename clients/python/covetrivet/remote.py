"""A session that a server has (`covetrivet serve`), with the calls of one's own.

    with covetrivet.connect("/run/shop.sock") as session:
        session.submit(1, 5, 6)
"""
from __future__ import annotations

import os
import socket
from collections.abc import Sequence

from covetrivet.answers import Heard
from covetrivet.commands import Command
from covetrivet.faults import Disconnected
from covetrivet.lines import NOTICE
from covetrivet.session import Path, Session
from covetrivet.wire import Wire

# How many of the last bytes of a server are kept: its last line.
KEPT = 1024


def connected(path: str) -> socket.socket:
    """Returns a socket that is connected to the server there. Disconnected where there is none."""
    it = socket.socket(socket.AF_UNIX)
    try:
        it.connect(path)
    except OSError as fault:
        it.close()
        raise Disconnected(f"no server can be reached at {path}: {fault.strerror or fault}") from fault
    return it


class Line(Wire):
    """The connection to a server."""

    def __init__(self, path: str) -> None:
        self.socket = connected(path)
        # (one descriptor for each way, as of two pipes)
        self.reader = self.socket.dup()
        self.said = b""
        super().__init__(self.socket.fileno(), self.reader.fileno())

    def read_some(self) -> bytes:
        try:
            some = super().read_some()
        except ConnectionResetError:
            return b""
        # (the last line may say why the connection ends)
        self.said = (self.said + some)[-KEPT:]
        return some

    def ended_by(self) -> Disconnected:
        last = self.said.removesuffix(b"\n").rpartition(b"\n")[2].decode("latin-1")
        return Disconnected(
            last.removeprefix(NOTICE) if last.startswith(NOTICE) else "the server has ended the connection"
        )

    def end_input(self) -> bool:
        return False

    def close_streams(self) -> None:
        self.socket.close()
        self.reader.close()
        super().close_streams()


class Connected(Session):
    """A session of a server's, by a connection of one's own."""

    WAITS = True

    def __init__(self, paths: Sequence[Path], token: str | None, seconds: float | None) -> None:
        super().__init__([], seconds=seconds)
        self._paths, self._token = [os.fspath(it) for it in paths], token
        self._path = ""

    def _enter(self) -> None:
        """Begins with the first server that performs lines."""
        found: list[str] = []
        for self._path in self._paths:
            try:
                super()._enter()
                return
            except Disconnected as why:
                found.append(str(why) if len(self._paths) == 1 else f"{self._path}: {why}")
                self._let_go()
                self._wire = self._said = None
        raise Disconnected("; ".join(found))

    def _started(self) -> tuple[Wire, list[str]]:
        return Line(self._path), []

    def _begin(self, lines: list[str]) -> None:
        if self._token is not None:
            shown(self._conversation().ask([token_line(self._token)], self._seconds)[0])
        super()._begin(lines)


def token_line(token: str) -> bytes:
    """Returns the line that gives a token. ValueError where that is no word."""
    return Command("token", token, read=str).line.encode("ascii")


def shown(answer: str) -> None:
    """Raises the refusal that a token is answered. (The secret isn't told by it.)"""
    heard = Heard(answer, "token")
    heard.refused()
    heard.behind("token")


def connect(
    path: Path | Sequence[Path], seconds: float | None = None, token: str | None = None
) -> Session:
    """Returns the session of the server at this socket, for a `with` block: each call is one of Session's,
    and is answered in its turn among those of all clients. Of several paths, as those of a cluster's nodes,
    the first one is taken that performs lines. `token` is what the server knows the client by: Denied where
    it doesn't.

    Disconnected where no server is there, or where it ends the connection: that is an OSError too. An
    exchange that takes more than so many `seconds`, and those that it waits, is given up by TimeoutError.
    `process` and `shorten_log` are the server's: they raise SessionClosed and LogFault.
    """
    paths = [path] if isinstance(path, (str, os.PathLike)) else list(path)
    if not paths:
        raise ValueError("there is no path to connect to")
    return Connected(paths, token, seconds)
