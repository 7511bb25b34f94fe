"""What calls of the C library answer where live sessions have nothing like it: refusals, and dataclasses."""
from __future__ import annotations

from dataclasses import dataclass, field

from covetrivet import refusals
from covetrivet.answers import Counts
from covetrivet.refusals import Refusal


class ClosedHandle(Refusal):
    """The manager or the caller is closed, or was handed back."""


class OpenHandle(Refusal):
    """A handle is open already."""


class NoPart(Refusal):
    """All callers are open."""


class TooMany(Refusal):
    """There are more than four outputs."""


class BadDraft(Refusal):
    """An output's stage isn't 1 to 15, or a word isn't 0 to 2^64 - 1."""


class FullLost(refusals.Full):
    """As Full of a commit, but another caller had aborted the unit before, as for Lost."""


class NotAll(Refusal):
    """Not all callers are at home."""


class OtherManager(Refusal):
    """The caller is of another manager, or should meet itself."""


@dataclass(frozen=True)
class RolledOver:
    """What is alive, by its id in the old manager: its id in the new one. `roots` has the root of each
    request of which something is alive, by its old one, also where that is alive itself. A root that was
    consumed has another one in its place, which the rollover made and consumed: the account counts it.
    `holders` has, by the number of each caller that has an element in hand, the id of that one.
    """

    moved: dict[int, int]
    roots: dict[int, int] = field(default_factory=dict)
    holders: dict[int, int] = field(default_factory=dict)


# The codes of include/covetrivet.h that are no refusals, and those that are.
IDLE, NONE = 16, 18
REFUSALS: dict[int, type[Refusal]] = {
    1: ClosedHandle,
    2: OpenHandle,
    3: refusals.NoMemory,
    4: refusals.BadLimits,
    5: NoPart,
    6: refusals.BadStage,
    7: refusals.NotThere,
    8: refusals.Consumed,
    9: refusals.AlreadyKilled,
    10: refusals.Full,
    11: refusals.NotParked,
    12: refusals.NoRound,
    13: refusals.NotHeld,
    14: refusals.NotWaiting,
    15: refusals.NoUnit,
    17: refusals.Lost,
    19: refusals.Busy,
    20: refusals.NoneOpen,
    21: TooMany,
    22: BadDraft,
    23: NotAll,
    24: refusals.Unequal,
    26: FullLost,
}


@dataclass(frozen=True)
class Limits:
    """The limits of a manager: up to 32 callers, and of each 256 elements in rows of its own and 1024 units
    of work. `attempts`, 1 to 7, come before an element is parked. Up to 256 spare blocks of 8 rows are
    anyone's.
    """

    parts: int = 4
    rows: int = 256
    units: int = 1024
    attempts: int = 3
    spare: int = 0


@dataclass(frozen=True)
class Account:
    """How many elements have each status, in all and by stage, 1 to 15."""

    total: Counts
    stages: dict[int, Counts]


@dataclass(frozen=True)
class Room:
    """The rows and units of work that are left to a caller, spare blocks aside."""

    rows: int
    units: int
