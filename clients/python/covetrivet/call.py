"""`covetrivet call`: sends lines to a server, and prints the answers as they come."""
from __future__ import annotations

import contextlib
import os
import socket
import sys
import threading
from collections.abc import Iterable, Iterator, Sequence

from covetrivet.remote import connected
from covetrivet.faults import Disconnected
from covetrivet.lines import NOTICE, is_asked
from covetrivet.options import WRONG_WORDS, calling
from covetrivet.wire import Answers

NO_SERVER, INTERRUPTED = 69, 130


class Call:
    """The lines of one call. They are sent by a thread of their own, while answers are printed."""

    def __init__(self, server: socket.socket, lines: Iterable[bytes]) -> None:
        self.server, self.lines = server, lines
        self.asked = 0

    def send(self) -> None:
        # (where the server has gone the answers' end tells it)
        with contextlib.suppress(OSError):
            for line in self.lines:
                self.asked += is_asked(line)
                self.server.sendall(line + b"\n")
            self.server.shutdown(socket.SHUT_WR)

    def run(self) -> int:
        """Returns the exit status: 1 where the connection ended before all was answered."""
        sender = threading.Thread(target=self.send, daemon=True)
        sender.start()
        answered, answers = 0, Answers()
        while some := self.receive():
            answers.add(some)
            for it in answers.take(answers.whole()):
                if it.startswith(NOTICE):
                    print(it, file=sys.stderr)
                    return 1
                print(it)
                answered += 1
            sys.stdout.flush()
        sender.join(1)
        if sender.is_alive() or answered < self.asked:
            print(f"{NOTICE}the connection has ended before all was answered", file=sys.stderr)
            return 1
        return 0

    def receive(self) -> bytes:
        try:
            return self.server.recv(65536)
        except ConnectionResetError:
            return b""


def call(words: Sequence[str]) -> int:
    """Returns the exit status: 0 where all is answered, be it by refusals, 1 where not, 69 without a server.
    """
    options = calling(words)
    if options.lines is not None and any("\n" in it for it in options.lines):
        print("covetrivet: a line is one line", file=sys.stderr)
        return WRONG_WORDS
    try:
        server = connected(options.socket)
    except Disconnected as why:
        print(f"covetrivet: {why}", file=sys.stderr)
        return NO_SERVER
    given = options.lines
    with server:
        try:
            return Call(server, read_lines() if given is None else map(str.encode, given)).run()
        except KeyboardInterrupt:
            return INTERRUPTED
        except BrokenPipeError:
            # (nobody reads the answers; nor what Python would write at its end)
            os.dup2(os.open(os.devnull, os.O_WRONLY), sys.stdout.fileno())
            return 1


def read_lines() -> Iterator[bytes]:
    """Yields the lines of the standard input, as they come."""
    # (not by sys.stdin: where a thread still waits for that, Python doesn't end well)
    rest = b""
    while some := os.read(0, 65536):
        *lines, rest = (rest + some).split(b"\n")
        yield from lines
    if rest:
        yield rest
