#!/usr/bin/env python3
"""Fairness: one order of each customer, round after round, however many one of them has sent.
"""
from __future__ import annotations

import sys
from collections import deque
from collections.abc import Iterator
from pathlib import Path

# (the package need not be installed: it is the checkout's)
sys.path.insert(0, str(Path(__file__).resolve().parents[2] / "clients/python"))
from covetrivet import Session  # noqa: E402

HEAD = ["worker clerk 1"]


def in_turn(waiting: dict[int, deque[int]]) -> Iterator[int]:
    """Yields what waits, by customers: one of each, round after round."""
    while waiting:
        for customer in list(waiting):
            yield waiting[customer].popleft()
            if not waiting[customer]:
                del waiting[customer]


def main() -> None:
    waiting: dict[int, deque[int]] = {}
    with Session(HEAD) as session:
        for customer in (7, 7, 7, 7, 8, 9, 9):
            order = session.submit(1, customer).element
            waiting.setdefault(customer, deque()).append(order)
        for order in in_turn(waiting):
            if work := session.take("clerk", order):
                work.commit()
                print("order", work.element, "of customer", work.words[0])


if __name__ == "__main__":
    main()
