"""A worker: a loop that claims, works and commits, and that may be killed at any moment and started again.

    worker = Worker(lambda: covetrivet.connect("shop.sock"), "packer", lambda work: [Draft(15, *work.words)])
    worker.run()

docs/RECOVERY.md says what that promises.
"""
from __future__ import annotations

import contextlib
import time
from collections.abc import Callable, Iterable

from covetrivet import refusals
from covetrivet.faults import Disconnected, SessionEnded, Unknown
from covetrivet.session import Session
from covetrivet.work import Draft, Work


def fail(_work: Work, fault: Exception) -> None:
    """Ends the worker by what its act has raised."""
    raise fault


class Worker:
    """The worker of this name, in a session that is open, or in those that `session` makes: then it makes
    the next one where a server or a program is gone.

    `act` is called with each work, and returns the outputs of its commit. Where it raises an exception, or
    its outputs are refused, the work is given up, and `failed` is called with the work and the exception:
    the worker goes on, unless that raises one itself. Without it `run` raises what `act` has raised. So it
    is where the commit is told Other: another process has the worker's name.

    What an earlier life of the worker has left in hand is done at first, or given up where `again` is False.
    A claim waits `wait` seconds for work where a server has the session, else one is made each `pause`.
    """

    def __init__(
        self,
        session: Session | Callable[[], Session],
        name: str,
        act: Callable[[Work], Iterable[Draft]],
        wait: int = 1,
        failed: Callable[[Work, Exception], None] = fail,
        again: bool = True,
        pause: float = 0.05,
    ) -> None:
        self.session, self.name, self.act = session, name, act
        self.wait, self.failed, self.again, self.pause = wait, failed, again, pause
        self.fault: Exception | None = None
        self.is_stopped = self.has_waits = False

    def stop(self) -> None:
        """Has the worker end behind the work in hand; one that waits for work ends within `wait` seconds. Any
        thread or signal's handler may call it, and `act` too.
        """
        self.is_stopped = True

    def run(self) -> None:
        """Works until it is stopped. What ends a session that is given, or what `failed` raises, is raised.
        So is each refusal that says that the session has no such worker.
        """
        if isinstance(self.session, Session):
            self.work_in(self.session)
        else:
            while not self.is_stopped:
                with contextlib.suppress(Disconnected, SessionEnded), self.session() as session:
                    self.work_in(session)
                self.rest()
        if self.fault:
            raise self.fault

    def rest(self) -> None:
        # (a signal's handler may stop the worker: so nothing waits that it would have to wake)
        if not self.is_stopped:
            time.sleep(self.pause)

    def work_in(self, session: Session) -> None:
        self.has_waits = session.WAITS
        is_known = False
        while not self.is_stopped:
            try:
                work = self.taken(session) if is_known else self.left(session)
                is_known = True
                if work:
                    self.do(work)
            except (refusals.Busy, Unknown, TimeoutError):
                # (what was asked was done or not, or another process has the name: `last` tells it)
                is_known = False

    def left(self, session: Session) -> Work | None:
        """Returns what is in hand and is to be done."""
        last = session.last_work(self.name)
        if last.fence and (not last.work or not self.again):
            with contextlib.suppress(refusals.Other, refusals.AlreadyAborted):
                session.abort(self.name, last.fence)
            return None
        return last.work

    def taken(self, session: Session) -> Work | None:
        if self.has_waits:
            try:
                return session.claim(self.name, self.wait)
            except refusals.Syntax:
                # (a node of a cluster has no lines that wait)
                self.has_waits = False
        work = session.claim(self.name)
        if not work:
            self.rest()
        return work

    def do(self, work: Work) -> None:
        try:
            drafts = tuple(self.act(work))
        except Exception as fault:
            self.give_up(work, fault)
            return
        except BaseException:
            with work:
                raise
        try:
            work.commit(*drafts)
        except refusals.Lost:
            # (its element was killed or released meanwhile)
            pass
        except (refusals.Refusal, TypeError) as fault:
            self.give_up(work, fault)

    def give_up(self, work: Work, fault: Exception) -> None:
        try:
            self.failed(work, fault)
        except Exception as last:
            self.fault = last
            self.stop()
        work.give_up()
