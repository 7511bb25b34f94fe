"""A client that may crash: it counts its sends and receives, and asks again where it doesn't know.

    client = Client(session, "shop")
    client.send((7, 30))
    reply = client.receive()

docs/RECOVERY.md says what that promises.
"""
from __future__ import annotations

from collections.abc import Callable, Sequence
from typing import TypeVar

from covetrivet.answers import Last, Received, Sent
from covetrivet.faults import Unknown
from covetrivet.session import Session

T = TypeVar("T")


class Client:
    """The client of this name, in a session of any kind, which goes on behind its last send and receive.
    `sent` and `received` say how many of each are made.

    NotThere where no such client is registered: a session that knows nothing of it is a new one, in which all
    it had sent is lost. So the head registers it, or whoever begins the session.

    It begins a new epoch of its name. Whoever had the name before is refused as Fenced from then on.
    """

    def __init__(self, session: Session, name: str) -> None:
        self.session = session
        self.name = name
        self.last()
        self.epoch = self.sure(lambda: self.session.register(name, new=True))
        last = self.last()
        self.sent, self.received = last.sent, last.received

    def send(self, words: Sequence[int], stage: int = 1) -> Sent:
        """Submits an element, as the client's next send. It is counted once that is answered: where the call
        is left by an exception the same words are sent next, by this client or by one of another session.
        """
        number = self.sent + 1
        sent = self.sure(lambda: self.session.send(self.name, number, stage, *words, epoch=self.epoch))
        self.sent = number
        return sent

    def receive(
        self, root: int | None = None, note: str | None = None, wait: int | None = None
    ) -> Received | None:
        """Takes the next reply to any of the client's requests, or to this one. None where none waits; of a
        server's session, where none comes in `wait` seconds. What `note` says, a word as a name, is told by
        `last` from then on.
        """
        number = self.received + 1
        reply = self.sure(lambda: self.session.receive(self.name, number, root, self.epoch, note, wait))
        self.received += reply is not None
        return reply

    def receive_again(self) -> Received | None:
        """Returns the reply that was received last, or None where none was. Nothing is taken."""
        return self.last().reply

    def last(self) -> Last:
        """Returns what the session knows of the client."""
        return self.sure(lambda: self.session.last(self.name))

    def sure(self, ask: Callable[[], T]) -> T:
        """Asks until there is an answer. What was answered `unknown` was done or not, and asked again it is
        done once.
        """
        while True:
            try:
                return ask()
            except Unknown:
                continue
