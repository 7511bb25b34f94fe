#!/usr/bin/env python3
"""A shop whose clerk, bank and packer work outside of the manager: three stages, one after another.

One customer can't pay at first: the bank gives the order up twice, it is parked, and another round is given
to it once there is money. One order is cancelled while the bank works on it: the bank's commit is lost, and
no money is taken.
"""
from __future__ import annotations

import sys
from pathlib import Path

# (the package need not be installed: it is the checkout's)
sys.path.insert(0, str(Path(__file__).resolve().parents[2] / "clients/python"))
from covetrivet import Draft, Session, Work, refusals, submit  # noqa: E402

HEAD = ["limit 2", "worker clerk 1", "worker bank 2", "worker packer 3"]
ORDERS = [(1, 30), (2, 70), (1, 50), (3, 20)]
REPLIES = 15


def check(session: Session) -> None:
    """The clerk passes each order on to the bank."""
    while work := session.claim("clerk"):
        customer, price = work.words[:2]
        work.commit(Draft(2, customer, price))


def pay(money: dict[int, int], work: Work) -> str:
    """The bank takes the price from the customer's money, if there is enough; it pays only what was
    committed.
    """
    customer, price = work.words[:2]
    if money[customer] < price:
        work.abort()
        return "declined"
    try:
        work.commit(Draft(3, customer, price))
    except refusals.Lost:
        return "lost"
    money[customer] -= price
    return "paid"


def main() -> None:
    money = {1: 100, 2: 60, 3: 20}
    with Session(HEAD) as session:
        with session.batch() as batch:
            asked = [batch.add(submit(1, customer, price)) for customer, price in ORDERS]
        orders = [it.value.element for it in asked]
        print("orders", *orders)
        check(session)

        if work := session.claim("bank"):
            killed = session.cancel(work.root).killed
            print("cancelled in flight:", killed, "killed; the bank:", pay(money, work))
        while work := session.claim("bank"):
            print("order", work.root, "attempt", work.attempt, pay(money, work))

        print("parked", *session.errors())
        money[2] += 40
        for element in session.errors():
            session.requeue(element)
        while work := session.claim("bank"):
            print("order", work.root, "attempt", work.attempt, pay(money, work))

        while work := session.claim("packer"):
            work.commit(Draft(REPLIES, *work.words))
        for order in orders:
            replies = session.collect(order)
            print("order", order, *(f"replied {it.words[0]}:{it.words[1]}" for it in replies))
        print("money", money)
        print(session.account())


if __name__ == "__main__":
    main()
