#!/usr/bin/env python3
"""Fan-out and fan-in: an order is split into parts, and is whole when the last of them is packed.
"""
from __future__ import annotations

import sys
from pathlib import Path

# (the package need not be installed: it is the checkout's)
sys.path.insert(0, str(Path(__file__).resolve().parents[2] / "clients/python"))
from covetrivet import Draft, Session  # noqa: E402

HEAD = ["worker splitter 1", "worker packer 2"]
PARTS, REPLIES = 2, 15
PRICES = {7: (20, 30, 40), 8: (10, 15)}


def left(session: Session, order: int) -> int:
    """Returns how much of an order isn't done: it waits, is in hand, or is parked."""
    states = [it.state for it in session.family(order) if it.stage != REPLIES]
    return sum(state in ("waiting", "held", "parked") for state in states)


def main() -> None:
    with Session(HEAD) as session:
        for customer in PRICES:
            session.submit(1, customer)
        while work := session.claim("splitter"):
            customer = work.words[0]
            work.commit(*(Draft(PARTS, customer, price) for price in PRICES[customer]))
        while work := session.claim("packer"):
            work.commit(Draft(REPLIES, *work.words))
            missing = left(session, work.root)
            print("order", work.root, "packed", work.words[1], "left", missing)
            if not missing:
                print("order", work.root, "is whole:", sum(it.words[1] for it in session.collect(work.root)))


if __name__ == "__main__":
    main()
