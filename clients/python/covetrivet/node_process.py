"""A node as a server's program: while it leads it answers the server's lines, each by a record of the log.

Between them are lines of their own. The node's begin with a sign that no answer has: who leads, and the
answers to the server's own questions. The server's are comments, and it hands on none of a client's.
"""
from __future__ import annotations

import contextlib
import os
import re
import sys
import threading
from collections.abc import Iterable, Sequence

from covetrivet.faults import NoProgram, SessionFault
from covetrivet.member import Member
from covetrivet.node import BAD_HEAD, head_of, opened
from covetrivet.options import joining
from covetrivet.program import NO_PROGRAM
from covetrivet.shared_log import BadHead, InDoubt, LogFull, SharedLog, Token

READ_AT_ONCE, SECONDS_TO_LEAVE = 65536, 10
OWN = "\1"
OF_SERVER = re.compile(rb"# (?:leads (\d+)|(place)|(count|depth|list \d+))")
UNKNOWN_LEADER = "it isn't known who leads"
FULL = "nobody can lead, since the log has no room"


class NodeProcess:
    """The node, with its streams. Its member's thread tells what becomes of lines."""

    def __init__(self, log: SharedLog, who: str, head: Sequence[str]) -> None:
        self.member = Member(log, who, head, self)
        self.lock = threading.Lock()
        # the term for which the server has sent lines
        self.reign = 0

    # ---- what the server sends

    def run(self) -> None:
        """Takes the server's lines until it sends no more."""
        self.member.thread.start()
        rest = b""
        while some := os.read(0, READ_AT_ONCE):
            *lines, rest = (rest + some).split(b"\n")
            self.take(lines)
        self.member.is_ending = True
        self.member.thread.join(SECONDS_TO_LEAVE)
        say("ends at place {}, digest {}".format(*self.member.stood))

    def take(self, lines: Iterable[bytes]) -> None:
        """Takes lines that have come together. Those before the term began are nobody's any more."""
        asked: list[str] = []
        for it in lines:
            own = OF_SERVER.fullmatch(it) if it.startswith(b"# ") else None
            if not own:
                asked.append(it.decode("latin-1"))
            elif own[1]:
                self.reign = int(own[1])
                asked.clear()
            else:
                place = f"place {self.member.place()}"
                self.say_own(f"told {place if own[2] else self.member.peek(own[3].decode())}")
        if asked:
            self.member.asked.put((self.reign, asked))

    # ---- what the member's thread tells

    def leads(self, token: Token, holds: str, names: Iterable[str]) -> None:
        say(f"leads from place {self.member.place()}")
        self.say_own(*(f"name {it}" for it in names), f"leads {token.term} {holds}")

    def follows(self, leader: str | None, why: str | None) -> None:
        if why is not None:
            say(f"leads no more: {why}")
        self.say_own(f"follows {f'{leader} leads' if leader else UNKNOWN_LEADER}")

    def unreached(self, why: InDoubt) -> None:
        say(f"can't reach the log: {why}")
        self.say_own(f"follows {FULL if isinstance(why, LogFull) else UNKNOWN_LEADER}")

    def answered(self, answers: Sequence[str]) -> None:
        self.write("".join(f"{it}\n" for it in answers))

    def ended(self, fault: SessionFault) -> None:
        status = BAD_HEAD if isinstance(fault, BadHead) else NO_PROGRAM if isinstance(fault, NoProgram) else 1
        self.say_own(f"ends {status} {' '.join(str(fault).split())}")

    # ---- what it writes

    def say_own(self, *lines: str) -> None:
        self.write("".join(f"{OWN}{it}\n" for it in lines))

    def write(self, text: str) -> None:
        left = memoryview(text.encode("ascii", "replace"))
        # (where the server is gone, so are its clients)
        with self.lock, contextlib.suppress(BrokenPipeError):
            while left:
                left = left[os.write(1, left) :]


def say(text: object) -> None:
    with contextlib.suppress(OSError):
        print(f"covetrivet: {text}", file=sys.stderr, flush=True)


def main(words: Sequence[str]) -> None:
    options, _ = joining(words)
    it = NodeProcess(opened(options), options.name, head_of(options))
    it.member.most_lines = options.dump
    it.run()


if __name__ == "__main__":
    main(sys.argv[1:])
