#!/usr/bin/env python3
"""Payloads: a body has the key of a picture, and the picture lies in a store of one's own.

A picture is deleted once nothing of its order is left to work on, and its reply is collected.
"""
from __future__ import annotations

import sys
from pathlib import Path

# (the package need not be installed: it is the checkout's)
sys.path.insert(0, str(Path(__file__).resolve().parents[2] / "clients/python"))
from covetrivet import Draft, Session, refusals  # noqa: E402

HEAD = ["keep 1", "worker resizer 1", "worker mailer 2"]
REPLIES = 15


def is_over(session: Session, order: int) -> bool:
    """Whether nothing of the order waits, is in hand or is parked, a reply neither."""
    try:
        family = session.family(order)
    except refusals.NotThere:
        return True  # (it is over, and forgotten)
    return all(member.state in ("consumed", "killed") for member in family)


def sweep(session: Session, pictures: dict[int, bytes], orders: dict[int, int]) -> list[int]:
    """Deletes the pictures of orders that are over. Returns the keys of those that are left."""
    for key, order in list(orders.items()):
        if is_over(session, order):
            del pictures[key], orders[key]
    return list(pictures)


def mail(session: Session) -> None:
    if work := session.claim("mailer"):
        work.commit()


def main() -> None:
    pictures: dict[int, bytes] = {}
    orders: dict[int, int] = {}
    with Session(HEAD) as session:
        for key, picture in ((100, b"cat"), (101, b"horse"), (102, b"ox")):
            pictures[key] = picture
            orders[key] = session.submit(1, key).element
        while work := session.claim("resizer"):
            key = work.words[0]
            work.commit(Draft(2, key), Draft(REPLIES, key, len(pictures[key])))
        for key, order in orders.items():
            print(key, "has bytes:", *(reply.words[1] for reply in session.collect(order)))
        print("replies collected:", sweep(session, pictures, orders))
        mail(session)
        print("one mailed:", sweep(session, pictures, orders))
        mail(session)
        mail(session)
        print("all mailed, and two forgotten:", sweep(session, pictures, orders))


if __name__ == "__main__":
    main()
