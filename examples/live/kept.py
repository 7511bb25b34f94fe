#!/usr/bin/env python3
"""A queue that is kept in a file: a log of what the session was sent, which a dump makes short now and then.

The first session is lost with an order in hand, and a second one goes on from the log.
"""
from __future__ import annotations

import sys
import tempfile
from pathlib import Path

# (the package need not be installed: it is the checkout's)
sys.path.insert(0, str(Path(__file__).resolve().parents[2] / "clients/python"))
from covetrivet import Draft, Session, SessionEnded  # noqa: E402

HEAD = ["keep 1", "worker clerk 1", "worker late 2"]
REPLIES = 15


def opened(log: Path) -> Session:
    """Returns the queue as it was left, or a new one."""
    return Session.from_log(log) if log.exists() else Session(HEAD, log=log)


def work_off(session: Session, customers: range) -> None:
    """Of each ten orders one is left for later. All others are replied to, and their replies collected."""
    for customer in customers:
        order = session.submit(2 if customer % 10 == 0 else 1, customer, 30).element
        if work := session.claim("clerk"):
            work.commit(Draft(REPLIES, *work.words))
            session.collect(order)
        if customer % 20 == 19:
            session.shorten_log()


def main() -> None:
    with tempfile.TemporaryDirectory() as folder:
        log = Path(folder) / "orders.log"
        try:
            with opened(log) as session:
                work_off(session, range(100))
                # What is in hand stays there, however often the log is made short.
                session.claim("late")
                work_off(session, range(100, 205))
                session.process.kill()
        except SessionEnded as ended:
            print("lost by signal", -ended.status)
        print("lines of the log:", len(log.read_text(encoding="ascii").splitlines()))
        with opened(log) as session:
            print("in hand:", session.holds(), "of", session.count())
            if work := session.last_work("late").work:
                print("done:", work.commit().element)
            while work := session.claim("late"):
                print(work.words[0], end=" ")
                work.commit()
            print("and none left")


if __name__ == "__main__":
    main()
