#!/usr/bin/env python3
"""Retries with backoff: what can't be sent now waits in a stage of its own, with the time when it is due.

The clock is the caller's. Customer 7 is there at once, 8 from second 25 on, and 9 is cancelled meanwhile. A
fourth order isn't due before second 20.
"""
from __future__ import annotations

import heapq
import sys
from pathlib import Path

# (the package need not be installed: it is the checkout's)
sys.path.insert(0, str(Path(__file__).resolve().parents[2] / "clients/python"))
from covetrivet import Draft, Session, refusals  # noqa: E402

HEAD = ["worker sender 1", "worker mover 2"]
READY, LATER, REPLIES = 1, 2, 15
THERE_FROM = {5: 0, 7: 0, 8: 25, 9: 1000}


def send(session: Session, later: list[tuple[int, int]], now: int) -> None:
    """Sends what is ready. What fails is due again after 10 seconds, then 20, 40, and so on."""
    while work := session.claim("sender"):
        customer, tries = work.words[:2]
        if now >= THERE_FROM[customer]:
            work.commit(Draft(REPLIES, customer, tries))
            continue
        due = now + 10 * 2**tries
        done = work.commit(Draft(LATER, customer, tries + 1, due))
        heapq.heappush(later, (due, done.outputs[0]))
        print(now, "customer", customer, "is due at", due)


def move(session: Session, later: list[tuple[int, int]], now: int) -> None:
    """Moves what is due to the sender's stage."""
    while later and later[0][0] <= now:
        _due, element = heapq.heappop(later)
        try:
            work = session.take("mover", element)
        except refusals.NotWaiting:
            continue  # it was cancelled
        if work:
            work.commit(Draft(READY, *work.words))


def told(session: Session) -> list[tuple[int, int]]:
    """Returns what is due later as the session tells it: for a client that begins anew."""
    waiting = [(it, session.read(it)) for it in session.all_waiting(LATER)]
    return sorted((look.words[2], element) for element, look in waiting)


def main() -> None:
    later: list[tuple[int, int]] = []
    with Session(HEAD) as session:
        orders = [session.submit(READY, customer).element for customer in (7, 8, 9)]
        orders.append(session.submit(LATER, 5, 0, 20).element)
        later.append((20, orders[3]))
        for now in (0, 10, 20, 30):
            move(session, later, now)
            send(session, later, now)
            if now == 10:
                print("it is told:", told(session), told(session) == sorted(later))
                print("cancelled:", session.cancel(orders[2]).killed)
        for order in orders:
            replies = [it.words for it in session.collect(order)]
            print("order", order, *(f"customer {it[0]}, retries {it[1]}" for it in replies))


if __name__ == "__main__":
    main()
