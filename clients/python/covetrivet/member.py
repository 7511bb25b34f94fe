"""A node's part in a shared log, in a thread of its own: it leads, or follows who does."""
from __future__ import annotations

import contextlib
import queue
import threading
import time
from collections.abc import Iterable, Sequence
from typing import Protocol

from covetrivet.faults import SessionFault
from covetrivet.refusals import Refusal
from covetrivet.replica import Replica
from covetrivet.shared_log import (
    BadHead, Base, Deposed, InDoubt, LogFull, LogLost, Record, SharedLog, Token,
)  # fmt: skip

# Of a follower: between two looks at the log at most. Of a leader: between two looks at its lease.
SECONDS_TO_WATCH, SECONDS_TO_LOOK = 1.0, 0.1
SECONDS_AFTER_DOUBT = 0.2
# (each sign is at most six bytes of a record, and etcd takes 1.5 MiB)
LINES_OF_RECORD, SIGNS_OF_RECORD = 1000, 150_000
# After so many lines the log is made short by a dump, and so late behind that: a follower that isn't further
# behind needs no dump.
MOST_LINES, SECONDS_TO_COMPACT = 20000, 1.0


class Told(Protocol):
    """Who is told what a member does, by its thread."""

    def leads(self, token: Token, holds: str, names: Iterable[str]) -> None:
        """The node leads. `holds` says who has units open, of callers elsewhere, and `names` are the lines by
        which workers and servers are there.
        """

    def follows(self, leader: str | None, why: str | None) -> None:
        """Another node leads, or nobody known. Where the node has led until now this is why it doesn't."""

    def unreached(self, why: InDoubt) -> None:
        """The log can't be reached, for this reason."""

    def answered(self, answers: Sequence[str]) -> None:
        """The next lines have these answers. Their record is in the log. One may have line ends in it."""

    def ended(self, fault: SessionFault) -> None:
        """The node can't go on."""


class Member:
    """The thread. `asked` has lines for it, and the term in which they are to be performed; `head` are the
    lines that a new log begins with, if it is to.

    A line is performed once its record is in the log, and answered by the node that appended it alone, and
    only where the log has said that it did.
    """

    def __init__(self, log: SharedLog, who: str, head: Sequence[str], told: Told) -> None:
        self.log, self.who, self.head, self.told = log, who, head, told
        self.asked: queue.SimpleQueue[tuple[int, list[str]]] = queue.SimpleQueue()
        self.pending: list[str] = []
        self.replica: Replica | None = None
        self.token: Token | None = None
        self.reign = 0
        self.most_lines = MOST_LINES
        # where the log's base is to be next, when, and how many lines it stands for
        self.next_base: tuple[Base, float, int] | None = None
        self.leader: str | None = None
        # where a session was that is closed
        self.stood = 0, ""
        self.is_ending = False
        # by what the log can't be reached, if it can't
        self.trouble: type[Exception] | None = None
        self.thread = threading.Thread(target=self.run, daemon=True)

    def run(self) -> None:
        try:
            while not self.is_ending:
                try:
                    self.act()
                    self.trouble = None
                except (Deposed, InDoubt) as why:
                    self.step_down(why)
                    time.sleep(SECONDS_AFTER_DOUBT)
        except SessionFault as fault:
            self.told.ended(fault)
        except TimeoutError as fault:
            self.told.ended(LogLost(str(fault)))
        except Exception as fault:
            self.told.ended(LogLost(repr(fault)))
            raise
        finally:
            if self.token:
                self.log.resign(self.token)
            self.log.close()
            with contextlib.suppress(SessionFault):
                self.close_replica()

    def act(self) -> None:
        if self.token and self.replica:
            self.lead(self.replica, self.token)
        else:
            self.follow()

    # ---- following

    def follow(self) -> None:
        if self.catch_up():
            return
        leader = self.log.leader()
        token = None if leader else self.log.lead()
        if token:
            self.token = token
            self.take_the_lead(token)
        else:
            if leader != self.leader:
                self.leader = leader
                self.told.follows(leader, None)
            self.log.watch(SECONDS_TO_WATCH)

    def catch_up(self) -> bool:
        """Performs what comes next in the log. False where nothing did."""
        if not self.replica:
            return self.begin_at(self.log.base(-1))
        records = self.log.read(self.replica.place)
        if not records or records[0][0] != self.replica.place:
            # What comes next may be deleted, behind a newer base.
            if self.begin_at(self.log.base(self.replica.place)):
                return True
        for place, record in records:
            self.replica.feed(place, record)
        return bool(records)

    def begin_at(self, base: Base | None) -> bool:
        """Has a session that goes on from a base. False without one."""
        if not base:
            return False
        self.close_replica()
        replica = Replica(base)
        try:
            replica.__enter__()
        except (Refusal, ValueError) as why:
            raise BadHead(f"the session can't begin: {why}") from why
        self.replica = replica
        return True

    def close_replica(self) -> None:
        if self.replica:
            self.stood = self.replica.place, self.replica.digest
            # (a program that doesn't end is killed)
            with contextlib.suppress(TimeoutError):
                self.replica.close()
            self.replica = None

    # ---- leading

    def take_the_lead(self, token: Token) -> None:
        """Performs all that earlier leaders have appended: none of them can append any more."""
        while self.catch_up():
            pass
        if not self.replica:
            base = Base(0, "", self.head)
            self.begin_at(base)
            if not self.log.compact(base, token):
                raise Deposed("another node leads")
        if self.replica:
            self.reign = token.term
            self.told.leads(token, self.replica.units(), self.replica.names.values())

    def lead(self, replica: Replica, token: Token) -> None:
        """Has the next record appended and performed, and its lines answered."""
        if token.is_lost:
            raise Deposed("the lease is lost")
        self.compact(replica, token)
        lines = self.next_lines()
        if not lines:
            return
        place, record = replica.place, Record(self.who, replica.digest, lines)
        if not self.log.append(place, record, token):
            raise Deposed("another node leads")
        answers = replica.feed(place, record)
        self.told.answered(answers)

    def next_lines(self) -> list[str]:
        """Returns the lines of the next record."""
        self.gather()
        if not self.pending:
            with contextlib.suppress(queue.Empty):
                self.take(*self.asked.get(timeout=SECONDS_TO_LOOK))
            return []
        many = signs = 0
        while many < min(len(self.pending), LINES_OF_RECORD) and signs < SIGNS_OF_RECORD:
            signs += len(self.pending[many])
            many += 1
        lines, self.pending = self.pending[:many], self.pending[many:]
        return lines

    def gather(self) -> None:
        with contextlib.suppress(queue.Empty):
            while True:
                self.take(*self.asked.get_nowait())

    def take(self, reign: int, lines: list[str]) -> None:
        # (what was asked while the node led another time is answered no more)
        if reign == self.reign:
            self.pending += lines

    def compact(self, replica: Replica, token: Token) -> None:
        """Makes the log short, where it is due."""
        if not self.next_base and replica.fed >= self.most_lines:
            self.next_base = replica.base(), time.monotonic() + SECONDS_TO_COMPACT, replica.fed
        if self.next_base and time.monotonic() > self.next_base[1]:
            if not self.log.compact(self.next_base[0], token):
                raise Deposed("another node leads")
            replica.fed -= self.next_base[2]
            self.next_base = None

    def place(self) -> int:
        """Returns the place that the node has come to."""
        return self.replica.place if self.replica else self.stood[0]

    def peek(self, line: str) -> str:
        """Returns what the node's session answers to a line that changes nothing, as far as the node has
        come; an empty text where it doesn't, in time. There is no record of it.
        """
        replica = self.replica
        # (another thread may just be closing it)
        with contextlib.suppress(SessionFault, OSError, ValueError):
            return replica.peek(line) if replica else ""
        return ""

    def step_down(self, why: Deposed | InDoubt) -> None:
        """Leads no more, if it did."""
        token, self.token = self.token, None
        self.pending, self.leader = [], None
        self.next_base = None
        if token:
            self.told.follows(None, str(why))
            self.log.resign(token)
        is_news = isinstance(why, LogFull) or not token
        if isinstance(why, InDoubt) and is_news and self.trouble is not type(why):
            self.told.unreached(why)
        self.trouble = type(why)
