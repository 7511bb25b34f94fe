"""What a worker or a server's desk has in hand, and how it ends."""
from __future__ import annotations

import contextlib
import operator
from dataclasses import dataclass, field, fields
from types import TracebackType
from typing import Protocol

from covetrivet import refusals
from covetrivet.faults import SessionFault

Words = tuple[int, int, int, int]


@dataclass(frozen=True)
class Draft:
    """An output of a commit: its stage, which is 15 for a reply, and its words. TypeError where one of these
    is no whole number.
    """

    stage: int
    zero: int = 0
    one: int = 0
    two: int = 0
    three: int = 0

    def __post_init__(self) -> None:
        for it in fields(self):
            operator.index(getattr(self, it.name))

    def __str__(self) -> str:
        return ":".join(f"{it:d}" for it in (self.stage, self.zero, self.one, self.two, self.three))


@dataclass(frozen=True)
class Done:
    """A committed unit, and the ids of its outputs."""

    element: int
    unit: int
    outputs: range


class Holder(Protocol):
    """A session, as work knows it."""

    def commit(self, name: str, /, *drafts: Draft, work: Work | None = None) -> Done:
        """The worker commits its work."""

    def abort(self, name: str, /, work: Work | str | None = None) -> int:
        """The worker gives its work up."""


@dataclass
class Hand:
    """Whose work it is, in which session, and whether it is known to have ended."""

    session: Holder
    worker: str
    is_over: bool = False


@dataclass(frozen=True)
class Work:
    """What a worker or a server's desk took. Of a server's work the root, the words and the try aren't told.

    `attempt` counts within the element's round, and `tries` over all its rounds: a try comes once. A `with`
    block that it isn't committed in gives it up.
    """

    element: int
    unit: int
    attempt: int
    told_root: int | None = None
    told_words: Words | None = None
    tries: int | None = field(default=None, compare=False)
    hand: Hand | None = field(default=None, compare=False, repr=False)

    @property
    def root(self) -> int:
        """The id of the request. LookupError of a server's work."""
        if self.told_root is None:
            raise LookupError(f"the root of a server's work isn't told: {self}")
        return self.told_root

    @property
    def words(self) -> Words:
        """The element's body. LookupError of a server's work."""
        if self.told_words is None:
            raise LookupError(f"the words of a server's work aren't told: {self}")
        return self.told_words

    @property
    def fence(self) -> str:
        """The word by which a commit or an abort names it. LookupError of a server's work."""
        if self.tries is None:
            raise LookupError(f"the try of a server's work isn't told: {self}")
        return fence(self.element, self.tries)

    # ---- its end

    def commit(self, *drafts: Draft) -> Done:
        """Commits it, with up to four outputs. Other where the worker has it in hand no more, Lost where
        another caller has taken its element away.
        """
        hand = self.held()
        done = hand.session.commit(hand.worker, *drafts, work=self.fenced())
        hand.is_over = True
        return done

    def abort(self) -> int:
        """Gives it up, and returns the element's id. Other and AlreadyAborted as a commit."""
        hand = self.held()
        element = hand.session.abort(hand.worker, work=self.fenced())
        hand.is_over = True
        return element

    def give_up(self) -> None:
        """Gives it up where it is in hand still."""
        with contextlib.suppress(refusals.Other, refusals.NoneOpen, refusals.AlreadyAborted, refusals.Ended):
            self.abort()

    def held(self) -> Hand:
        if self.hand is None:
            raise ValueError(f"this work is of no session that it could be ended by: {self}")
        return self.hand

    def fenced(self) -> Work | None:
        """Returns the work as an end names it. (That of a server can't be named.)"""
        return None if self.tries is None else self

    def __enter__(self) -> Work:
        return self

    def __exit__(
        self, kind: type[BaseException] | None, fault: BaseException | None, trace: TracebackType | None
    ) -> None:
        if self.held().is_over:
            return
        try:
            self.give_up()
        except (SessionFault, refusals.Refusal, OSError):
            # What the block was left by says more.
            if kind is None:
                raise


def fence(element: int, tries: int) -> str:
    """Returns the word by which a commit or an abort names this try of an element."""
    return f"={element}:{tries}"
