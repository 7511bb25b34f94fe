#!/usr/bin/env python3
"""Dead letters: what can't be done goes to stage 14, with the reason. Nothing is parked.

An editor reads them. One is tried again, as the same request, and one is let be.
"""
from __future__ import annotations

import sys
from enum import IntEnum
from pathlib import Path

# (the package need not be installed: it is the checkout's)
sys.path.insert(0, str(Path(__file__).resolve().parents[2] / "clients/python"))
from covetrivet import Draft, Session  # noqa: E402

HEAD = ["worker clerk 1", "worker editor 14"]
DEAD, REPLIES = 14, 15


class Reason(IntEnum):
    """Why an order can't be done."""

    NO_SUCH_GOODS = 1
    SOLD_OUT = 2


def objection(stock: dict[int, int], goods: int) -> Reason | None:
    if goods not in stock:
        return Reason.NO_SUCH_GOODS
    return None if stock[goods] else Reason.SOLD_OUT


def work_off(session: Session, stock: dict[int, int]) -> None:
    while work := session.claim("clerk"):
        customer, goods = work.words[:2]
        if reason := objection(stock, goods):
            work.commit(Draft(DEAD, work.element, reason, customer, goods))
        else:
            work.commit(Draft(REPLIES, customer, goods))


def main() -> None:
    stock = {501: 3, 502: 0}
    asked = [(7, 501), (8, 502), (9, 777)]
    with Session(HEAD) as session:
        orders = [session.submit(1, customer, goods).element for customer, goods in asked]
        work_off(session, stock)
        print(session.count())
        while letter := session.claim("editor"):
            element, reason, customer, goods = letter.words
            print("order", element, "of customer", customer, Reason(reason).name)
            if reason == Reason.SOLD_OUT:
                stock[goods] += 5
                letter.commit(Draft(1, customer, goods))
            else:
                letter.commit()
        work_off(session, stock)
        for order in orders:
            print("order", order, "replied", [reply.words[1] for reply in session.collect(order)])


if __name__ == "__main__":
    main()
