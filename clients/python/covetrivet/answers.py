"""What calls return, and how an answer's line is read. docs/LIVE.md has the lines."""
from __future__ import annotations

import re
from collections.abc import Callable
from dataclasses import dataclass, field

from covetrivet import refusals
from covetrivet.faults import Unknown
from covetrivet.lines import UNKNOWN
from covetrivet.work import Hand, Holder, Words, Work


@dataclass(frozen=True)
class Submitted:
    """A client's element is born."""

    element: int


@dataclass(frozen=True)
class Killed:
    """An element is killed; `aborted` counts the units that held it, 0 or 1."""

    element: int
    aborted: int


@dataclass(frozen=True)
class Cancelled:
    """A request is cancelled; `killed` counts its elements that were killed by it."""

    root: int
    killed: int


@dataclass(frozen=True)
class Requeued:
    """A parked element has another round of attempts."""

    element: int
    round: int


@dataclass(frozen=True)
class Released:
    """The unit that held the element is aborted."""

    element: int
    unit: int
    attempt: int


@dataclass(frozen=True)
class Reply:
    """A reply to a request."""

    element: int
    words: Words


@dataclass(frozen=True)
class Sent:
    """A client's send of this number is made. `element` is what it submitted; of an earlier send than the
    last that is None.
    """

    number: int
    element: int | None


@dataclass(frozen=True)
class Received:
    """A client's receive of this number: the reply's id, its request's, and its words."""

    number: int
    element: int
    root: int
    words: Words


@dataclass(frozen=True)
class Last:
    """How many sends and receives a client has made, what the last send submitted, and the last receive with
    the word that came with it.
    """

    sent: int
    element: int | None
    received: int
    reply: Received | None
    note: str | None = None


@dataclass(frozen=True)
class UnitEnd:
    """How a worker's last unit ended: `done`, `aborted` or `lost`. Of one that is done: the unit, and the ids
    of its outputs.
    """

    how: str
    element: int
    unit: int | None = None
    outputs: range = range(0)


@dataclass(frozen=True)
class LastWork:
    """What a worker has in hand, or has lost without having heard of it; and how its last unit ended, if one
    has. `fence` is the word by which a commit or an abort names what it has in hand, or has lost.
    """

    work: Work | None
    lost: int | None
    ended: UnitEnd | None
    fence: str | None = field(default=None, compare=False)


@dataclass(frozen=True)
class Member:
    """An element of a request; `state` is waiting, held, consumed, parked or killed."""

    element: int
    stage: int
    state: str


@dataclass(frozen=True)
class Look:
    """An element that was read: `by` is `client` or the unit that made it, and the status is as in `held 16
    1`.
    """

    element: int
    stage: int
    root: int
    words: Words
    by: str
    status: str


@dataclass(frozen=True)
class Counts:
    """The elements by status."""

    waiting: int
    held: int
    consumed: int
    parked: int
    killed: int


@dataclass(frozen=True)
class Depth:
    """How many elements of a stage wait, are held and are parked."""

    stage: int
    waiting: int
    held: int
    parked: int


@dataclass(frozen=True)
class Held:
    """An open unit of a server or worker, and the element that it took. `attempt` is None where another
    caller has aborted the unit.
    """

    name: str
    element: int
    unit: int
    attempt: int | None


@dataclass(frozen=True)
class Account:
    """How many elements were born, and how many have each status."""

    born: int
    waiting: int
    held: int
    consumed: int
    parked: int
    killed: int


@dataclass(frozen=True)
class Dumped:
    """All that there is, as the lines of a session that goes on from there."""

    lines: tuple[str, ...]


class NotUnderstood(ValueError):
    """An answer hasn't the form that its command's answers have."""


@dataclass(frozen=True)
class Heard:
    """The answer to a command, and the session that it came in, where work can be ended by that."""

    text: str
    command: str
    session: Holder | None = field(default=None, compare=False, repr=False)

    def hand_of(self, worker: str) -> Hand | None:
        return Hand(self.session, worker) if self.session else None

    def numbers(self, form: str) -> tuple[int, ...]:
        """Returns the numbers of an answer of this form, in which each N is one."""
        return tuple(map(int, self.formed(form.replace("N", "([0-9]+)")).groups()))

    def behind(self, first: str) -> Heard:
        """Returns what is behind the first word, which must be this one."""
        word, _, rest = self.text.partition(" ")
        if word != first:
            raise self.not_understood()
        return Heard(rest, self.command)

    def listed(self, form: str) -> list[str]:
        """Returns the words behind those of the form."""
        words, wanted = self.text.split(" "), form.split(" ")
        Heard(" ".join(words[: len(wanted)]), self.command).numbers(form)
        return words[len(wanted) :]

    def ids(self, form: str) -> tuple[int, ...]:
        """Returns the numbers behind the words of the form."""
        return self.ids_in(self.listed(form))

    def ids_in(self, words: list[str]) -> tuple[int, ...]:
        if not all(it.isdecimal() for it in words):
            raise self.not_understood()
        return tuple(map(int, words))

    def of_number(self, first: str, client: str, nth: int) -> list[str]:
        """Returns the words behind those that name a client's send or receive."""
        words = self.text.split(" ")
        if words[:3] != [first, client, str(nth)] or len(words) == 3:
            raise self.not_understood()
        return words[3:]

    def formed(self, form: str) -> re.Match[str]:
        """Returns what the groups of this form are in the answer."""
        found = re.fullmatch(form, self.text)
        if not found:
            raise self.not_understood()
        return found

    def not_understood(self) -> NotUnderstood:
        return NotUnderstood(f"{self.command!r} was answered {self.text!r}")

    def refused(self) -> None:
        """Raises the refusal that the answer is, by its name, if it is one that any command may have; or
        Unknown.
        """
        if self.text == UNKNOWN:
            raise Unknown(f"the session was lost behind {self.command!r}, which it may have performed")
        found = re.fullmatch(r"refused (?:line \d+: )?\d+ (\w+)(?: (\d+))?", self.text)
        if found:
            kind = refusals.BY_NAME.get(found[1])
            if kind is None:
                raise self.not_understood()
            raise kind(self.command, unit=int(found[2]) if found[2] else None)

    def said_of(self, name: str) -> Heard:
        """Returns what is told behind the name of a worker or server, and raises what it is refused."""
        said = self.behind(name)
        first, *others = said.text.split(" ")
        kind = refusals.BY_WORD.get(first)
        if kind and len(others) <= 1:
            raise kind(self.command, name, int(others[0]) if others else None)
        if first == "refused" and len(others) == 2:
            why = refusals.BY_NAME.get(others[1])
            element = int(others[0])
            if why:
                raise why(self.command, name, element)
            raise refusals.Declined(self.command, name, element, reason=others[1])
        return said


def words_of(text: str) -> Words:
    """Returns the four words of a body that is told with two or four."""
    words = [int(it) for it in text.split(":")]
    zero, one, two, three = words + [0] * (4 - len(words))
    return zero, one, two, three


# What a worker has taken, as an answer tells it.
TAKEN = r"(\d+) unit (\d+) attempt (\d+) root (\d+) body ([\d:]+) try (\d+)"


def taken(heard: Heard, worker: str, *told: str) -> Work:
    element, unit, attempt, root, body, tries = told
    hand, words = heard.hand_of(worker), words_of(body)
    return Work(int(element), int(unit), int(attempt), int(root), words, int(tries), hand)


def received(nth: int, element: str, root: str, body: str) -> Received:
    return Received(nth, int(element), int(root), words_of(body))


def said(text: str) -> Callable[[Heard], None]:
    """Returns what reads this answer, which tells nothing."""

    def read(heard: Heard) -> None:
        if heard.text != text:
            raise heard.not_understood()

    return read
