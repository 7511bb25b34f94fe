"""The queues: a session, and beside it the messages' bodies and what waits for whom.

An element has the number of its message as word 0. A message in a consumer's hand is a *lease* of the
gateway's: its element waits. Where it is acknowledged the element is taken and committed at once. So there
may be any number of leases, where a worker has one element in hand.
"""
from __future__ import annotations

import heapq
import itertools
import sys
from collections.abc import Mapping, Sequence
from pathlib import Path
from typing import NamedTuple

# (the package need not be installed: it is the checkout's)
sys.path.insert(0, str(Path(__file__).resolve().parents[2] / "clients/python"))
from covetrivet import Draft, Look, Session, Work, refusals  # noqa: E402

HEAD = ["limit 3", "worker gate 1"]
GATE, REPLIES, MOST_OUTPUTS = "gate", 15, 4
DEAD = "/dlq"


def opened() -> Session:
    """Returns the session, for a `with` block."""
    return Session(HEAD)


class Refused(Exception):
    """What a client asks for isn't done. The text says why."""


class Message(NamedTuple):
    """What was sent."""

    headers: Mapping[str, str]
    body: bytes


class Output(NamedTuple):
    """A message that is to be sent, and where to."""

    destination: str
    message: Message


class Queues:
    """The queues of these names, of which each is a stage of the session."""

    def __init__(self, session: Session, names: Sequence[str]) -> None:
        self.session = session
        self.stages = {f"/queue/{name}": stage for stage, name in enumerate(names, 1)}
        self.names = {stage: name for name, stage in self.stages.items()}
        self.numbers = itertools.count(1)
        self.messages: dict[int, Message] = {}
        # what waits for each destination, by id; what is over meanwhile is passed over
        self.waiting: dict[str, list[int]] = {}

    # ---- what waits

    def wait(self, element: int) -> None:
        """Has the element wait for who subscribes to where it is now."""
        look = self.look(element)
        if look:
            heapq.heappush(self.waiting.setdefault(self.destination(look), []), element)

    def destination(self, look: Look) -> str:
        if look.status.startswith("parked"):
            return DEAD
        return f"/reply/{look.root}" if look.stage == REPLIES else self.names[look.stage]

    def look(self, element: int) -> Look | None:
        """Returns the element, where it waits or is parked."""
        try:
            look = self.session.read(element)
        except refusals.NotThere:
            return None
        return look if look.status.split()[0] in ("waiting", "parked") else None

    def next_of(self, destination: str) -> tuple[int, Look, Message] | None:
        """Returns what waits there with the least id, which waits there no more."""
        heap = self.waiting.get(destination, [])
        while heap:
            element = heapq.heappop(heap)
            look = self.look(element)
            if look and self.destination(look) == destination:
                return element, look, self.messages[look.words[0]]
        return None

    def may_subscribe(self, destination: str) -> bool:
        return destination in self.stages or destination == DEAD or destination.startswith("/reply/")

    # ---- what is done

    def send(self, output: Output) -> int:
        """Sends a message as a request of its own, and returns its element."""
        if output.destination not in self.stages:
            raise Refused(f"there is no destination {output.destination} to send to by itself")
        number = self.keep(output.message)
        element = self.session.submit(self.stages[output.destination], number).element
        self.wait(element)
        return element

    def keep(self, message: Message) -> int:
        number = next(self.numbers)
        self.messages[number] = message
        return number

    def settle(self, element: int, outputs: Sequence[Output]) -> None:
        """Consumes an element and makes these outputs, all or nothing: a unit of work."""
        look = self.look(element)
        if not look:
            raise Refused("the ACK comes too late: the message was cancelled")
        if self.destination(look) not in self.stages:
            raise Refused("a transaction takes a message of a queue, and no reply or dead letter")
        known = {**self.stages, "/reply": REPLIES}
        for it in outputs:
            if it.destination not in known:
                raise Refused(f"there is no destination {it.destination} for an output")
        stages = [known[it.destination] for it in outputs]
        numbers = [self.keep(it.message) for it in outputs]
        try:
            made = self.commit(element, [Draft(*it) for it in zip(stages, numbers)])
        except refusals.Refusal as why:
            for number in numbers:
                del self.messages[number]
            raise Refused(f"nothing is done: {why}") from why
        del self.messages[look.words[0]]
        for output in made:
            self.wait(output)

    def commit(self, element: int, drafts: Sequence[Draft]) -> range:
        with self.take(element) as work:
            return work.commit(*drafts).outputs

    def take(self, element: int) -> Work:
        work = self.session.take(GATE, element)
        assert work
        return work

    def finish(self, element: int) -> None:
        """Consumes an element of a queue, and takes a reply or a dead letter away."""
        look = self.look(element)
        if not look or self.destination(look) in self.stages:
            self.settle(element, [])
            return
        self.session.kill(element)
        del self.messages[look.words[0]]

    def give_back(self, element: int) -> None:
        """Ends an attempt: the element waits again, or is parked where it was the last one. A reply or a dead
        letter waits as before.
        """
        look = self.look(element)
        if not look:
            return
        if self.destination(look) in self.stages:
            self.take(element).abort()
        self.wait(element)

    def requeue(self, element: int) -> None:
        """Gives a dead letter another round of attempts."""
        try:
            self.session.requeue(element)
        except refusals.Refusal as why:
            raise Refused(f"it can't be tried again: {why}") from why
        self.wait(element)

    def cancel(self, root: int) -> int:
        """Cancels a request, and returns how many of its messages were killed by that."""
        try:
            before = [it.element for it in self.session.family(root) if it.stage != REPLIES]
            looks = [look for it in before if (look := self.look(it))]
            killed = self.session.cancel(root).killed
        except refusals.Refusal as why:
            raise Refused(f"there is no such request: {why}") from why
        for it in looks:
            self.messages.pop(it.words[0], None)
        return killed
