#!/usr/bin/env python3
"""A backlog that stays outside: the session takes so many elements at a time, and tells when it is full.

Each order has two replies, its price and a receipt.
"""
from __future__ import annotations

import sys
from collections import deque
from contextlib import suppress
from pathlib import Path

# (the package need not be installed: it is the checkout's)
sys.path.insert(0, str(Path(__file__).resolve().parents[2] / "clients/python"))
from covetrivet import Draft, Session, refusals  # noqa: E402

HEAD = ["max 20", "worker clerk 1"]
REPLIES = 15


def refill(session: Session, backlog: deque[int], inside: deque[int]) -> None:
    """Submits of the backlog what there is room for."""
    with suppress(refusals.Full):
        while backlog:
            inside.append(session.submit(1, backlog[0]).element)
            backlog.popleft()


def main() -> None:
    backlog = deque(range(1000))  # (as of a file or a table)
    inside: deque[int] = deque()
    paid = 0
    with Session(HEAD) as session:
        refill(session, backlog, inside)
        print("inside", len(inside), "outside", len(backlog))
        while inside:
            if work := session.claim("clerk"):
                work.commit(Draft(REPLIES, *work.words), Draft(REPLIES, 1))
            if replies := session.collect(inside[0]):
                paid += replies[0].words[0]
                inside.popleft()
            refill(session, backlog, inside)
        print("paid", paid)


if __name__ == "__main__":
    main()
