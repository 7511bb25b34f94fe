"""Calls that are left at each line of the package that they come to, or out of which another one comes, as by
Ctrl-C and by a signal's handler.
"""
from __future__ import annotations

import contextlib
import os
import sys
import tempfile
import unittest
from collections.abc import Callable
from types import FrameType
from typing import Any

import covetrivet
from covetrivet import Client, Session, SessionBroken, connect, count, refusals, submit
from serving import Serving

HEAD = ["keep 1", "worker clerk 1", "register shop"]
PACKAGE = os.path.dirname(covetrivet.__file__)


def leave() -> None:
    raise KeyboardInterrupt


def at_line(nth: int, call: Callable[[], object], do: Callable[[], object]) -> bool:
    """Does this at the nth line of the package that the call comes to. Whether it came to so many."""
    left = nth

    def trace(frame: FrameType, event: str, _arg: object) -> Any:
        nonlocal left
        if not frame.f_code.co_filename.startswith(PACKAGE):
            return None
        if event == "line":
            left -= 1
            if left == 0:
                sys.settrace(None)
                do()
        return trace

    sys.settrace(trace)
    try:
        # (work that was taken by a call that was left is in hand)
        with contextlib.suppress(KeyboardInterrupt, refusals.Busy, refusals.Other):
            call()
    finally:
        sys.settrace(None)
    return left <= 0


def send_two(session: Session) -> None:
    with session.batch() as batch:
        batch.add(submit(2, 7))
        batch.add(count())


def work(session: Session) -> None:
    """Has a work done, or given up where the block is left."""
    found = session.last_work("clerk").work or session.claim("clerk")
    if found:
        with found:
            found.commit()


Call = Callable[[Session], object]
Calls = tuple[Call, ...]
CALLS: Calls = (
    lambda session: session.dump(),
    lambda session: session.submit(1, 7),
    lambda session: session.claim("clerk"),
    lambda session: session.last("shop"),
    lambda session: Client(session, "shop").send((7,)),
    lambda session: Client(session, "shop").receive(),
    send_two,
    work,
)


# (a dump isn't to have more with each of them)
LOGGED: Calls = (lambda session: session.shorten_log(), lambda session: session.submit(1, 7))


class Anywhere(unittest.TestCase):
    def each_line(self, session: Session, calls: Calls, do: Call) -> None:
        """Each call has its own answer behind one that was left at any line, or out of which another came."""
        for call in calls:
            nth = 1
            while at_line(nth, lambda: call(session), lambda: do(session)):
                nth += 1
                before, element = self.born(session), session.submit(2, nth).element
                self.assertEqual((session.read(element).words[0], self.born(session)), (nth, before + 1))
                session.kill(element)
            self.assertGreater(nth, 20)

    def born(self, session: Session) -> int:
        it = session.count()
        return it.waiting + it.held + it.consumed + it.parked + it.killed

    def test_a_call_that_is_left(self) -> None:
        with Session(HEAD) as session:
            self.each_line(session, CALLS, lambda _session: leave())

    def test_a_call_out_of_a_call(self) -> None:
        def submit_and_read(session: Session) -> None:
            element = session.submit(2, 5).element
            self.assertEqual((session.read(element).words[0], session.kill(element).aborted), (5, 0))

        with Session(HEAD) as session:
            self.each_line(session, CALLS, submit_and_read)

    def test_journals_and_servers(self) -> None:
        with tempfile.TemporaryDirectory() as folder:
            with Session.open(f"{folder}/journal", HEAD) as session:
                self.each_line(session, CALLS[:1], lambda _session: leave())
        with Serving(HEAD) as server, connect(server.path) as session:
            self.each_line(session, CALLS[-2:], lambda _session: leave())

    def test_logs(self) -> None:
        """A session whose log may have what wasn't sent says so. The log has all that was told."""
        with tempfile.TemporaryDirectory() as folder:
            path, told = f"{folder}/log", [-1]
            with Session(HEAD, log=path):
                pass
            for call in LOGGED:
                nth = 1
                while self.is_left(path, nth, call, told):
                    nth += 1
                self.assertGreater(nth, 20)
            self.assertGreater(len(told), 20)

    def is_left(self, path: str, nth: int, call: Call, told: list[int]) -> bool:
        """Leaves the call there, and submits. Whether the call came to so many lines."""
        with Session.from_log(path) as session:
            self.assertGreater(self.born(session), told[-1])
            came = at_line(nth, lambda: call(session), leave)
            with contextlib.suppress(SessionBroken):
                told.append(session.submit(1, nth).element)
                session.kill(told[-1])
        return came

    def test_a_call_out_of_a_call_with_a_log(self) -> None:
        """It is refused where the log has what wasn't sent, and else in the log."""

        def submit_it(session: Session) -> None:
            with contextlib.suppress(SessionBroken):
                session.kill(session.submit(2, 5).element)

        with tempfile.TemporaryDirectory() as folder:
            with Session(HEAD, log=f"{folder}/log") as session:
                self.each_line(session, LOGGED, submit_it)
                lines = session.dump().lines
            with Session.from_log(f"{folder}/log") as session:
                self.assertEqual(session.dump().lines, lines)

    def test_a_close(self) -> None:
        """Behind one that was left another one ends the program, and nothing stays open."""
        nth, came = 1, True
        before = len(os.listdir("/proc/self/fd"))
        while came:
            with Session(HEAD) as session:
                session.submit(1, 5)
                came = at_line(nth, session.close, leave)
                session.close()
                self.assertIsNotNone(session.process.poll())
                self.assertEqual(len(os.listdir("/proc/self/fd")), before)
                with self.assertRaises(covetrivet.SessionClosed):
                    session.count()
            nth += 1
        self.assertGreater(nth, 20)


if __name__ == "__main__":
    unittest.main()
