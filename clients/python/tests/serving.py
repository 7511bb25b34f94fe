"""A server in a process of its own, and clients of it, for the tests."""
from __future__ import annotations

import contextlib
import os
import socket
import subprocess
import sys
import tempfile
import time
from collections.abc import Callable, Sequence
from signal import Signals
from types import TracebackType

from covetrivet import program

# how long an answer may take (where errors are planted it is less)
SECONDS = float(os.environ.get("COVETRIVET_TEST_SECONDS", "30"))


class Client:
    """A connection."""

    def __init__(self, path: str) -> None:
        self.socket = socket.socket(socket.AF_UNIX)
        self.socket.settimeout(SECONDS)
        try:
            self.socket.connect(path)
        except OSError:
            self.socket.close()
            raise
        self.reader = self.socket.makefile("rb")

    def send(self, *lines: str) -> None:
        """Sends lines. Where the server has closed the connection, what it said is still to be read."""
        with contextlib.suppress(BrokenPipeError):
            self.socket.sendall("".join(f"{it}\n" for it in lines).encode("latin-1"))

    def line(self) -> str:
        """Returns the next line; an empty one at the end."""
        with contextlib.suppress(ConnectionResetError):
            return self.reader.readline().decode("ascii").rstrip("\n")
        return ""

    def ask(self, *lines: str) -> list[str]:
        """Sends lines, and returns as many of answers."""
        self.send(*lines)
        return [self.line() for _ in lines]

    def rest(self) -> list[str]:
        """Returns all lines up to the end."""
        found = []
        while it := self.line():
            found.append(it)
        return found

    def say_all(self) -> None:
        self.socket.shutdown(socket.SHUT_WR)

    def close(self) -> None:
        self.reader.close()
        self.socket.close()

    def __enter__(self) -> Client:
        return self

    def __exit__(
        self, kind: type[BaseException] | None, fault: BaseException | None, trace: TracebackType | None
    ) -> None:
        self.close()


class Serving:
    """A server, in a `with` block, in a folder of its own. Its session's program writes down its id."""

    def __init__(self, head: Sequence[str], *options: str, folder: str | None = None) -> None:
        self.stack = contextlib.ExitStack()
        self.folder = folder or self.stack.enter_context(tempfile.TemporaryDirectory())
        self.path, self.metrics = f"{self.folder}/socket", f"{self.folder}/metrics"
        with open(f"{self.folder}/head", "w", encoding="ascii") as file:
            file.writelines(f"{it}\n" for it in head)
        self.options = options

    def begin(self) -> Serving:
        script = f"{self.folder}/program"
        # (a new file in place of one that a program of a server before may just be started from)
        with open(f"{script}.new", "w", encoding="utf-8") as file:
            found = " ".join(program.find())
            # (a head is tried without the journal first)
            words = 2 if "--journal" in self.options else 0
            file.write(f"#!/bin/sh\n[ $# != {words} ] || echo $$ > {self.folder}/pid\nexec {found} \"$@\"\n")
        os.chmod(f"{script}.new", 0o755)
        os.replace(f"{script}.new", script)
        command = "serve", "--socket", self.path, "--head", f"{self.folder}/head", "--metrics", self.metrics
        self.process = subprocess.Popen(
            [sys.executable, "-m", "covetrivet", *command, *self.options],
            stdout=subprocess.PIPE,
            stderr=subprocess.PIPE,
            text=True,
            env={**os.environ, program.VARIABLE: script},
        )
        self.stack.callback(self.let_go)
        return self

    def ready(self) -> Serving:
        """Waits until clients may connect."""
        said = self.process.stderr.readline() if self.process.stderr else ""
        if said != f"covetrivet: serves on {self.path}\n":
            self.process.kill()
            raise RuntimeError(f"the server isn't ready: {said} {self.process.communicate()}")
        return self

    def __enter__(self) -> Serving:
        return self.begin().ready()

    def __exit__(
        self, kind: type[BaseException] | None, fault: BaseException | None, trace: TracebackType | None
    ) -> None:
        self.stack.close()

    def let_go(self) -> None:
        # (a session that was stopped would never see the end of its input)
        with contextlib.suppress(OSError):
            self.signal_session(Signals.SIGCONT)
        self.process.kill()
        self.process.communicate()

    def client(self) -> Client:
        return self.stack.enter_context(Client(self.path))

    def clients(self, many: int) -> list[Client]:
        return [self.client() for _ in range(many)]

    def signal_session(self, number: Signals) -> None:
        with open(f"{self.folder}/pid", encoding="ascii") as file:
            os.kill(int(file.read()), number)

    def signal(self, number: Signals) -> None:
        self.process.send_signal(number)

    def end(self) -> tuple[int, str, str]:
        """Waits for its end. Returns its exit status and what it wrote."""
        try:
            out, errors = self.process.communicate(timeout=SECONDS)
        finally:
            self.process.kill()
        return self.process.returncode, out, errors

    def memory(self) -> int:
        """Returns how many bytes of memory the server has."""
        with open(f"/proc/{self.process.pid}/statm", encoding="ascii") as file:
            return int(file.read().split(" ")[1]) * os.sysconf("SC_PAGESIZE")

    def processor(self) -> float:
        """Returns how many seconds of a processor the server has had."""
        with open(f"/proc/{self.process.pid}/schedstat", encoding="ascii") as file:
            return int(file.read().split(" ")[0]) / 1e9

    def counted(self, name: str) -> float:
        """Returns one of the server's metrics; 0 where there is none of this name."""
        lines = self.scraped()[1].splitlines()
        found = [it.split(" ")[1] for it in lines if it.split(" ")[0] == f"covetrivet_{name}"]
        return float(found[0]) if found else 0

    def scraped(self) -> tuple[str, str]:
        """Returns the head and the text that the metrics are."""
        with Client(self.metrics) as it:
            it.socket.sendall(b"GET /metrics HTTP/1.0\r\n\r\n")
            head, _, text = it.reader.read().decode("ascii").partition("\r\n\r\n")
        return head, text


def comes(is_so: Callable[[], bool], seconds: float = SECONDS) -> bool:
    """Whether this comes to be so within so many seconds."""
    until = time.monotonic() + seconds
    while not is_so():
        if time.monotonic() > until:
            return False
        time.sleep(0.02)
    return True
