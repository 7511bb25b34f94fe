#!/usr/bin/env python3
"""A client that is killed again and again, and goes on: its session has a journal.

Each life is a process of its own, which is killed by SIGKILL behind five steps: a submit, a claim or a
commit. What it was answered is there in the next life. There it gives up the order that it had in hand,
which it doesn't know any more.
"""
from __future__ import annotations

import os
import signal
import subprocess
import sys
import tempfile
from pathlib import Path

# (the package need not be installed: it is the checkout's)
sys.path.insert(0, str(Path(__file__).resolve().parents[2] / "clients/python"))
from covetrivet import Draft, Session  # noqa: E402

HEAD = ["worker clerk 1"]
ORDERS, REPLIES = 6, 15


class Life:
    """A life of so many steps."""

    def __init__(self, steps: int) -> None:
        self.left = steps

    def step(self) -> None:
        self.left -= 1
        if not self.left:
            os.kill(os.getpid(), signal.SIGKILL)

    def run(self, journal: str) -> None:
        with Session.open(journal, HEAD) as session:
            there = session.count()
            print(f"recovered {session.recovered} lines:", there, flush=True)
            self.give_up(session)
            # (each reply that waits is that of an order that is consumed)
            for customer in range(there.waiting + there.held, ORDERS):
                session.submit(1, customer, 30)
                self.step()
            while work := session.claim("clerk"):
                self.step()
                work.commit(Draft(REPLIES, *work.words))
                self.step()
            replies = [it.words[0] for order in range(ORDERS) for it in session.reply(order)]
            print("each order is replied to once:", replies)

    def give_up(self, session: Session) -> None:
        if work := session.last_work("clerk").work:
            print("in hand was order", work.abort(), flush=True)


def main() -> None:
    if len(sys.argv) > 1:
        Life(5).run(sys.argv[1])
        return
    with tempfile.TemporaryDirectory() as folder:
        for life in range(1, 10):
            status = subprocess.run([sys.executable, __file__, f"{folder}/orders.journal"]).returncode
            print(f"life {life} ended", f"by signal {-status}" if status else "in order", flush=True)
            if not status:
                break


if __name__ == "__main__":
    main()
