#!/usr/bin/env python3
"""A client and a worker that are killed again and again, while each order is worked on once, and each reply
is handled.

Each life is a process of its own, which is killed by SIGKILL behind seven steps: behind an answer to the
client or the worker, or when a reply was handled. The session has a journal.
"""
from __future__ import annotations

import os
import signal
import subprocess
import sys
import tempfile
from collections.abc import Callable, Sequence
from pathlib import Path
from typing import TypeVar

# (the package need not be installed: it is the checkout's)
sys.path.insert(0, str(Path(__file__).resolve().parents[2] / "clients/python"))
from covetrivet import Client, Draft, Received, Session  # noqa: E402

HEAD = ["worker clerk 1", "register shop"]
ORDERS = [(customer, 30) for customer in (7, 8, 9)]
STEPS, REPLIES = 7, 15
T = TypeVar("T")


def run_exactly_once(
    client: Client,
    orders: Sequence[Sequence[int]],
    handle: Callable[[Received], None],
    wait: Callable[[], None],
) -> None:
    """Sends each order once, and has each reply handled, in order. It may be killed at any moment, and be
    called again with the same orders: then the last reply is handled once more.
    """
    if reply := client.receive_again():
        handle(reply)
    for order in orders[client.sent :]:
        client.send(order)
    while client.received < len(orders):
        if reply := client.receive():
            handle(reply)
        else:
            wait()


class Life:
    """A life of so many steps."""

    def __init__(self, steps: int) -> None:
        self.left = steps

    def step(self) -> None:
        self.left -= 1
        if not self.left:
            os.kill(os.getpid(), signal.SIGKILL)

    def run(self, folder: str) -> None:
        with Session.open(f"{folder}/journal", HEAD) as session, open(f"{folder}/handled", "a") as handled:

            def handle(reply: Received) -> None:
                print(reply.words[0], file=handled, flush=True)
                self.step()

            def work() -> None:
                """The worker goes on with what it has in hand, or claims."""
                work = session.last_work("clerk").work
                if not work:
                    work = session.claim("clerk")
                    self.step()
                if work:
                    work.commit(Draft(REPLIES, *work.words))
                    self.step()

            run_exactly_once(Mortal(session, "shop", self), ORDERS, handle, work)
            print("in the end:", session.count())


class Mortal(Client):
    """A client whose process may end behind each answer."""

    def __init__(self, session: Session, name: str, life: Life) -> None:
        self.life = life
        super().__init__(session, name)

    def sure(self, ask: Callable[[], T]) -> T:
        answer = super().sure(ask)
        self.life.step()
        return answer


def main() -> None:
    if len(sys.argv) > 1:
        Life(STEPS).run(sys.argv[1])
        return
    with tempfile.TemporaryDirectory() as folder:
        lives = 1
        while subprocess.run([sys.executable, __file__, folder]).returncode == -signal.SIGKILL:
            lives += 1
        handled = Path(folder, "handled").read_text(encoding="ascii").split()
        print(f"behind {lives - 1} kills; replies to these customers were handled:", *handled)


if __name__ == "__main__":
    main()
