#!/usr/bin/env python3
"""Sending again after a crash: each request has a number of the client's, which is looked for before.

The session has a log. Its program is lost with one request replied to, one in hand, one that waits, and one
that was not answered.
"""
from __future__ import annotations

import sys
import tempfile
from contextlib import suppress
from pathlib import Path

# (the package need not be installed: it is the checkout's)
sys.path.insert(0, str(Path(__file__).resolve().parents[2] / "clients/python"))
from covetrivet import Draft, Session, SessionEnded  # noqa: E402

HEAD = ["worker clerk 1"]
REPLIES = 15


def requests(session: Session) -> dict[int, int]:
    """Returns the requests of which something is alive, by their numbers."""
    elements = [line.split() for line in session.dump().lines if line.startswith("element ")]
    numbers = {element: int(out.split(":")[1]) for _, element, out, *_ in elements}
    alive = [root for _, _, _, root, _, _, _, state, *_ in elements if state in ("waiting", "held", "parked")]
    return {numbers[root]: int(root) for root in alive}


def work_off(session: Session) -> None:
    while work := session.claim("clerk"):
        work.commit(Draft(REPLIES, *work.words))


def crash(log: Path) -> None:
    with Session(HEAD, log=log) as session:
        for number in (1, 2, 3):
            session.submit(1, number, 10 * number)
        if work := session.claim("clerk"):
            work.commit(Draft(REPLIES, *work.words))
        session.claim("clerk")
        session.process.kill()
        session.submit(1, 4, 40)


def main() -> None:
    replied: dict[int, int] = {}  # (in a store of the client's that lasts)
    with tempfile.TemporaryDirectory() as folder:
        log = Path(folder) / "orders.log"
        with suppress(SessionEnded):
            crash(log)
        with Session.from_log(log) as session:
            if work := session.last_work("clerk").work:
                work.abort()
            known = requests(session)
            print("there:", *sorted(known))
            for number in {1, 2, 3, 4, 5} - known.keys() - replied.keys():
                print("sent again:", number)
                session.submit(1, number, 10 * number)
            work_off(session)
            session.shorten_log()
            for number, order in requests(session).items():
                replied[number] = session.reply(order)[0].words[1]
                session.collect(order)
            print("replied:", replied, "left:", requests(session))


if __name__ == "__main__":
    main()
