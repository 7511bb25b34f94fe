#!/usr/bin/env python3
"""A queue without end: each order is taken, replied to and collected, and what is over is forgotten.

One order of a hundred waits for the end. It is there as long as it waits.
"""
from __future__ import annotations

import sys
from pathlib import Path

# (the package need not be installed: it is the checkout's)
sys.path.insert(0, str(Path(__file__).resolve().parents[2] / "clients/python"))
from covetrivet import Draft, Session  # noqa: E402

HEAD = ["keep 10", "worker clerk 1", "worker late 2"]
REPLIES = 15


def pay(session: Session, customer: int) -> int:
    """Has the clerk work on an order of this customer, and returns what the reply says was paid."""
    order = session.submit(1, customer, 30).element
    if work := session.claim("clerk"):
        work.commit(Draft(REPLIES, *work.words))
    (reply,) = session.collect(order)
    return reply.words[1]


def main() -> None:
    paid, late = 0, []
    with Session(HEAD) as session:
        for customer in range(2_000):
            if customer % 100 == 0:
                late.append(session.submit(2, customer, 30).element)
            else:
                paid += pay(session, customer)
        known = sum(line.startswith("element ") for line in session.dump().lines)
        print("paid", paid, "of", session.count().consumed // 2, "orders, and knows", known, "elements")
        print("waited:", all(session.read(it).status == "waiting 0" for it in late))
        while work := session.claim("late"):
            late.remove(work.element)
            work.commit()
        print("left:", len(late))


if __name__ == "__main__":
    main()
