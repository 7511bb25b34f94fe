"""The session of a node, which is fed the records of the log, in order."""
from __future__ import annotations

import re
from collections.abc import Sequence

from covetrivet import commands
from covetrivet.lines import pieces_of
from covetrivet.session import Session
from covetrivet.shared_log import Base, Diverged, LogLost, Record, digest_of

SECONDS_TO_PEEK = 1.0


class Replica(Session):
    """A session that goes on from a base. Its answers are a function of the records that it is fed: all
    replicas that have come to a place have answered the same, which their digests tell.

    `fed` counts the lines since the base, and `names` are the lines by which workers and servers are there. A
    program that doesn't answer in so many `SECONDS` is given up by TimeoutError.
    """

    SECONDS = 60.0

    def __init__(self, base: Base) -> None:
        super().__init__(base.lines, seconds=self.SECONDS)
        self.place, self.digest = base.place, base.digest
        self.fed = 0
        named = [it for it in base.lines if it.startswith(("worker ", "server "))]
        self.names = {it.split()[1]: it for it in named if len(it.split()) > 1}

    def feed(self, place: int, record: Record) -> list[str]:
        """Performs a record, and returns the answers to its lines. LogLost where it isn't the next one,
        Diverged where the session has come to other answers than the one that appended it.
        """
        if place != self.place:
            raise LogLost(f"the log lacks record {self.place}: the next one is {place}")
        if record.digest != self.digest:
            raise Diverged(
                f"at record {place} of {record.by} the answers of this node have digest {self.digest}, "
                f"and those of {record.by} {record.digest}"
            )
        return self._feed(record.lines)

    def _feed(self, lines: Sequence[str]) -> list[str]:
        self.place += 1
        self.fed += len(lines)
        answers = [it for piece in pieces_of(lines) for it in self._exchange_bytes(piece)]
        for line, answer in zip(lines, answers):
            if ("worker" in line or "leave" in line) and not answer.startswith("refused "):
                self._note_name(line)
        # (the number of a line in its refusal is this program's own)
        same = [re.sub(r"^refused line \d+:", "refused line:", it) for it in answers]
        self.digest = digest_of(self.digest, same)
        return answers

    def _note_name(self, line: str) -> None:
        verb, name, *_ = [*line.split(None, 2), "", ""]
        if verb == "worker":
            self.names[name] = line
        elif verb == "leave":
            self.names.pop(name, None)

    def units(self) -> str:
        """Returns who has a unit open, or has lost one, as the session answers it."""
        return self._exchange_bytes(["holds"])[0]

    def peek(self, line: str) -> str:
        """Returns the answer to a line that changes nothing. TimeoutError where none comes soon."""
        return self._conversation().ask([line.encode("ascii")], SECONDS_TO_PEEK)[0]

    def _exchange_bytes(self, lines: Sequence[str]) -> list[str]:
        """Sends lines of any bytes, each of which has an answer."""
        return self._conversation().ask([it.encode("latin-1") for it in lines], self._seconds)

    def base(self) -> Base:
        """Returns what a session goes on from at this place: a dump."""
        return Base(self.place, self.digest, self.do(commands.dump()).lines)
