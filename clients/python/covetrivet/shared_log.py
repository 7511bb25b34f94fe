"""A log that several machines share, as a node needs it. etcd keeps one (etcd.py), or PostgreSQL does
(postgres.py).

It is a list of records, each at its place, counted from 0, and a base: the dump of a session behind all
records before its place. Records before the base are deleted. One node at a time leads, which its token
says. Who leads no more can't change the log, however late what it sent comes.
"""
from __future__ import annotations

import contextlib
import hashlib
import json
from collections.abc import Iterator, Sequence
from dataclasses import dataclass
from typing import Any, NamedTuple, Protocol

from covetrivet.faults import SessionFault


# What is in a log says with which version it was written. The number changes with each change by which the
# same lines may be answered otherwise.
VERSION = 2


class InDoubt(Exception):
    """The log couldn't be asked, or its answer didn't come: what was to be done may have been done, or may be
    yet. The text says why.
    """


class LogFull(InDoubt):
    """What keeps the log has no room for more."""


class Deposed(Exception):
    """This node leads no more, or can't know that it does. The text says why."""


class LogLost(SessionFault):
    """The log can't be gone on from: it lacks a record, or isn't one. The text says why."""


class Diverged(SessionFault):
    """The session of this node has answered otherwise than that of the node which appended a record."""


class Record(NamedTuple):
    """Lines of clients, who appended them, and the digest of all answers to the lines before."""

    by: str
    digest: str
    lines: Sequence[str]

    def text(self) -> str:
        return text_of(self._asdict())

    @classmethod
    def of(cls, text: str) -> Record:
        with understood(text) as told:
            return cls(str(told["by"]), str(told["digest"]), [str(it) for it in told["lines"]])


class Base(NamedTuple):
    """The lines that a session begins with which goes on from this place, and the digest there."""

    place: int
    digest: str
    lines: Sequence[str]

    def text(self) -> str:
        return text_of(self._asdict())

    @classmethod
    def of(cls, text: str) -> Base:
        with understood(text) as told:
            return cls(int(told["place"]), str(told["digest"]), [str(it) for it in told["lines"]])


def text_of(said: dict[str, Any]) -> str:
    return json.dumps({"version": VERSION, **said}, separators=(",", ":"))


@contextlib.contextmanager
def understood(text: str) -> Iterator[Any]:
    """Yields what the text says. LogLost where it isn't what a record or a base says, or of another version.
    """
    try:
        said = json.loads(text)
        version = said.get("version", "none")
        if version != VERSION:
            raise LogLost(f"the log is of another version ({version}), and this node knows {VERSION} alone")
        yield said
    except (ValueError, TypeError, KeyError, AttributeError) as fault:
        raise LogLost(f"this is no record and no base: {text[:60]!r}") from fault


def digest_of(before: str, answers: Sequence[str]) -> str:
    """Returns the digest of answers behind those with this digest."""
    summed = hashlib.blake2b(before.encode("ascii"), digest_size=16)
    for it in answers:
        summed.update(it.encode("ascii", "replace") + b"\n")
    return summed.hexdigest()


@dataclass(eq=False)
class Token:
    """That a node leads: the number of its term, which each change of the log is compared with. Where
    `is_lost` it leads no more, as far as it knows; the log knows for certain.
    """

    term: int
    lease: str = ""
    is_lost: bool = False


class SharedLog(Protocol):
    """What a node needs of a log. Each call raises InDoubt where it can't be known what it did."""

    def lead(self) -> Token | None:
        """Has this node lead, where nobody does."""

    def leader(self) -> str | None:
        """Returns the name of the node that leads."""

    def append(self, place: int, record: Record, token: Token) -> bool:
        """Appends the record at this place. False where the node leads no more or the place is taken: it was
        not done then, and will not be.
        """

    def read(self, place: int) -> list[tuple[int, Record]]:
        """Returns the next records from this place on, of which more may follow. It sees all that was
        appended before the call.
        """

    def base(self, behind: int) -> Base | None:
        """Returns the base, where its place is behind this one."""

    def compact(self, base: Base, token: Token) -> bool:
        """Puts the base in place of the one that was, and deletes the records before it, both or neither.
        False where the node leads no more.
        """

    def watch(self, seconds: float) -> None:
        """Waits until something may have changed behind what was read last, for so many seconds at most."""

    def resign(self, token: Token) -> None:
        """Has the node lead no more, at once where the log can be reached, else in the time of a lease."""

    def close(self) -> None:
        """Closes the connections."""


class BadHead(SessionFault):
    """The lines to begin with are refused. The text says why."""
