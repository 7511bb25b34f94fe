"""The refusals of a live session: one class each, by the name that the program gives it.

    except refusals.Busy as busy:
        print(busy.worker, "has a unit open:", busy.command)

docs/LIVE.md says when each comes. Nothing was done, unless the class says so. The calls of
covetrivet.library raise those of them that they have, and some of their own.
"""
from __future__ import annotations


class Refusal(Exception):
    """A command was answered by a refusal. The documentation of each class is what it says.

    `command` is the line as the caller gave it, or the name of a call of the C library. `worker` is the
    worker or server whom it was for. `element` and `unit` are told by some refusals, and `reason` by a server
    that declines. What isn't told is None.
    """

    def __init__(
        self,
        command: str,
        worker: str | None = None,
        element: int | None = None,
        unit: int | None = None,
        reason: str | None = None,
    ) -> None:
        super().__init__(command, worker, element, unit, reason)
        self.command = command
        self.worker = worker
        self.element = element
        self.unit = unit
        self.reason = reason

    def __str__(self) -> str:
        told = {"worker": self.worker, "element": self.element, "unit": self.unit, "reason": self.reason}
        shown = ", ".join(f"{name} {value}" for name, value in told.items() if value is not None)
        says = " ".join((type(self).__doc__ or "").split())
        return f"{self.command!r}{f' ({shown})' if shown else ''}: {says}"


class Syntax(Refusal):
    """A line has no such form."""


class BadNumber(Refusal):
    """A number of the line is out of its range."""


class BadLimits(Refusal):
    """A setting is out of its range, or there are too many servers."""


class BadRecipe(Refusal):
    """A server's recipe is refused, or it has no such register."""


class BadName(Refusal):
    """A name is none, is used twice, or nobody has it; or a worker can't do this."""


class TooLong(Refusal):
    """The line has more than 1,023 bytes."""


class Order(Refusal):
    """A line of the head came behind it; or what a dump says wasn't restored at once."""


class BadStage(Refusal):
    """The stage isn't 1 to 999, or it is 15; of a taken element, it is another server's."""


class NotThere(Refusal):
    """No such element is born, or it is forgotten; or no such client is registered, or the request isn't the
    client's.
    """


class Consumed(Refusal):
    """The element is consumed by the unit."""


class AlreadyKilled(Refusal):
    """The element is killed."""


class Full(Refusal):
    """As many elements are alive as the session may have. (Of the C library: a caller has no rows left.)"""


class NotParked(Refusal):
    """The element isn't parked."""


class NoRound(Refusal):
    """The element has had all rounds of attempts."""


class Busy(Refusal):
    """A unit of work is open."""


class NotHeld(Refusal):
    """No unit holds the element."""


class NotWaiting(Refusal):
    """The element is held, consumed, parked or killed."""


class NoUnit(Refusal):
    """Of the C library alone: the caller has no unit of work left."""


class NoMemory(Refusal):
    """Of the C library alone: there was no memory."""


class Unequal(Refusal):
    """Of the C library alone: a rollover would have been wrong. No call tells it, which is proved."""


class Gap(Refusal):
    """The number is greater than the client's next one."""


class Fenced(Refusal):
    """The client is in another epoch: another process has its name."""


class Differs(Refusal):
    """The last send had this number, and another stage or other words."""


class Past(Refusal):
    """The number is of an earlier receive than the last one, whose answer isn't kept. It was received."""


class Other(Refusal):
    """The worker has other work in hand, or none: another process has its name, or the work was taken
    away.
    """


class NoneOpen(Refusal):
    """No unit of work is open."""


class Lost(Refusal):
    """Another caller had aborted the unit: nothing is committed."""


class Declined(Refusal):
    """A server declined its work, for the reason told. The unit is aborted."""


class AlreadyAborted(Refusal):
    """Another caller had aborted the unit."""


class Ended(Refusal):
    """The server was dropped."""


class Denied(Refusal):
    """A server's rights don't allow this client such a line."""


BY_NAME: dict[str, type[Refusal]] = {it.__name__: it for it in Refusal.__subclasses__()}

# What a worker or a server is answered by one word, which the element may follow.
BY_WORD: dict[str, type[Refusal]] = {
    "busy": Busy,
    "none": NoneOpen,
    "lost": Lost,
    "already": AlreadyAborted,
    "ended": Ended,
    "other": Other,
}
