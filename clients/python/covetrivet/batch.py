"""Commands that are sent together."""
from __future__ import annotations

from collections.abc import Callable
from types import TracebackType
from typing import Any, Generic, TypeVar

from covetrivet.commands import Command
from covetrivet.faults import Unknown
from covetrivet.refusals import Refusal

T = TypeVar("T")


class Later(Generic[T]):
    """The answer of a command of a batch, which is there once the batch has ended."""

    def __init__(self, command: Command[T]) -> None:
        self.command = command
        self.answers: list[T] = []
        self.refusal: Refusal | Unknown | None = None

    @property
    def value(self) -> T:
        """Returns the answer, or raises the refusal. ValueError where the batch hasn't ended, or was left by
        an exception.
        """
        if self.refusal:
            raise self.refusal
        if not self.answers:
            raise ValueError(f"the batch with {self.command.line!r} has not been answered")
        return self.answers[0]

    def take(self, answer: Callable[[], T]) -> None:
        """Takes what this returns, or the refusal that it raises."""
        try:
            self.answers.append(answer())
        except (Refusal, Unknown) as refusal:
            self.refusal = refusal


class Batch:
    """Commands that are sent together, as one exchange, once the `with` block ends without an exception. One
    thread makes a batch.
    """

    def __init__(self, send: Callable[[list[Later[Any]]], None]) -> None:
        self.send = send
        self.asked: list[Later[Any]] = []
        self.has_ended = False

    def add(self, command: Command[T]) -> Later[T]:
        """Adds a command. ValueError where the batch has ended."""
        if self.has_ended:
            raise ValueError("the batch has ended")
        later = Later(command)
        self.asked.append(later)
        return later

    def __enter__(self) -> Batch:
        if self.has_ended:
            raise ValueError("the batch has ended")
        return self

    def __exit__(
        self, kind: type[BaseException] | None, fault: BaseException | None, trace: TracebackType | None
    ) -> None:
        self.has_ended = True
        if kind is None and self.asked:
            self.send(self.asked)
