#!/usr/bin/env python3
"""Priorities: what is express goes first, by stages; and by any order of one's own, by ids.
"""
from __future__ import annotations

import sys
from pathlib import Path

# (the package need not be installed: it is the checkout's)
sys.path.insert(0, str(Path(__file__).resolve().parents[2] / "clients/python"))
from covetrivet import Session, Work  # noqa: E402

HEAD = ["worker express 1", "worker usual 2"]


def claim(session: Session) -> tuple[str, Work] | None:
    """Takes an express order, or else a usual one, and returns under which name."""
    for name in ("express", "usual"):
        if work := session.claim(name):
            return name, work
    return None


def main() -> None:
    with Session(HEAD) as session:
        for stage, customer in ((2, 5), (2, 6), (1, 7)):
            session.submit(stage, customer)
        while found := claim(session):
            name, work = found
            work.commit()
            print(name, "customer", work.words[0])
            if work.words[0] == 7:
                session.submit(1, 8)

        prices = {session.submit(2, price).element: price for price in (30, 70, 50)}
        for element in sorted(prices, key=prices.__getitem__, reverse=True):
            if taken := session.take("usual", element):
                taken.commit()
                print("price", taken.words[0])


if __name__ == "__main__":
    main()
