#!/usr/bin/env python3
"""Time limits for workers: the caller keeps when it heard of each last, and takes work from a late one.

The clock is the caller's. Bob says in time that he is at it. Ann is late once. Then she is taken for dead,
and another one works under her name when her commit comes.
"""
from __future__ import annotations

import sys
from contextlib import suppress
from pathlib import Path

# (the package need not be installed: it is the checkout's)
sys.path.insert(0, str(Path(__file__).resolve().parents[2] / "clients/python"))
from covetrivet import Draft, Session, Work, refusals  # noqa: E402

HEAD = ["worker ann 1", "worker bob 1"]
REPLIES = 15
SECONDS = 30
Held = dict[str, tuple[Work, int]]  # by a worker's name: its work, and when it was heard of last


def claim(session: Session, held: Held, name: str, now: int) -> Work:
    """Returns what the worker is given. (Something waits each time.)"""
    work = session.claim(name)
    assert work
    held[name] = work, now
    print(now, name, "has", work.element, "attempt", work.attempt)
    return work


def beat(held: Held, name: str, now: int) -> None:
    if name in held:
        held[name] = held[name][0], now


def release_late(session: Session, held: Held, now: int) -> None:
    for name in [it for it, (_, since) in held.items() if now - since > SECONDS]:
        work, _ = held.pop(name)
        with suppress(refusals.NotHeld):  # it was cancelled
            print(now, "released", session.release(work.element).element, "of", name)


def commit(held: Held, name: str, work: Work, now: int) -> None:
    """Commits what the worker was given, unless it was taken away, or its name has other work by now."""
    try:
        print(now, name, "did", work.commit(Draft(REPLIES)).element)
        held.pop(name)
    except (refusals.Lost, refusals.Other):
        print(now, name, "is too late with unit", work.unit)


def bury(work: Work) -> None:
    """Ends the unit of a worker that is dead, so that its name is free."""
    with suppress(refusals.AlreadyAborted, refusals.Other):
        work.abort()


def main() -> None:
    held: Held = {}
    with Session(HEAD) as session:
        session.submit(1, 5)
        session.submit(1, 6)
        of_ann, of_bob = claim(session, held, "ann", 0), claim(session, held, "bob", 0)
        beat(held, "bob", 20)
        release_late(session, held, 40)
        commit(held, "bob", of_bob, 41)
        of_bob = claim(session, held, "bob", 41)
        commit(held, "ann", of_ann, 50)
        commit(held, "bob", of_bob, 51)

        session.submit(1, 7)
        of_dead = claim(session, held, "ann", 60)
        release_late(session, held, 100)
        try:
            session.claim("ann")
        except refusals.Busy:
            print("her unit is still open")
        bury(of_dead)
        of_ann = claim(session, held, "ann", 100)
        commit(held, "ann", of_dead, 105)
        commit(held, "ann", of_ann, 110)


if __name__ == "__main__":
    main()
