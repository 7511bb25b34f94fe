"""A shared log in memory, for tests of a node's parts: it does what it is told to do wrongly.

Run as a program it is a node over such a log of another process: memory_log.py PORT WHO [HEAD-LINE..].
"""
from __future__ import annotations

import sys
import threading
from collections.abc import Iterable, Sequence
from multiprocessing.managers import BaseManager
from typing import Any

from covetrivet.faults import SessionFault
from covetrivet.member import Member
from covetrivet.node_process import NodeProcess
from covetrivet.shared_log import Base, InDoubt, LogFull, Record, Token


class Store:
    """What all nodes share. With `doubts` the next append is in doubt: it is done, or it isn't. `late` is
    what an earlier leader has appended in the last moment before the next one leads. `only` is who alone may
    lead, if it is one alone. Where it `is_full` nothing can be appended, and nobody can lead.
    """

    def __init__(self) -> None:
        self.records: dict[int, Record] = {}
        self.the_base: Base | None = None
        self.term = 0
        self.holder: str | None = None
        self.only: str | None = None
        self.is_full = False
        self.doubts: list[bool] = []
        self.late: list[Record] = []
        self.changed = threading.Condition()

    def next_term(self, holder: str | None) -> None:
        """Has another one lead, or nobody."""
        with self.changed:
            self.term += 1
            self.holder = holder
            self.changed.notify_all()

    def has_lead(self, who: str) -> None:
        """Has this one alone lead from now on."""
        self.only = who
        self.next_term(None)

    # ---- what nodes do with it

    def leader(self) -> str | None:
        return self.holder

    def lead(self, who: str) -> Token | None:
        with self.changed:
            if self.is_full:
                raise LogFull("there is no room")
            if self.holder or self.only not in (None, who):
                return None
            self.term += 1
            self.holder = who
            if self.late:
                self.records[max(self.records, default=-1) + 1] = self.late.pop()
            return Token(self.term)

    def append(self, place: int, record: Record, term: int) -> bool:
        with self.changed:
            doubt = self.doubts.pop(0) if self.doubts else None
            if self.is_full and doubt is None:
                raise LogFull("there is no room")
            is_free = self.term == term and place not in self.records
            if is_free and doubt is not False:
                self.records[place] = record
                self.changed.notify_all()
        if doubt is not None:
            raise InDoubt("no answer came")
        return is_free

    def read(self, place: int) -> list[tuple[int, Record]]:
        with self.changed:
            return [(at, self.records[at]) for at in sorted(self.records) if at >= place][:3]

    def base(self, behind: int) -> Base | None:
        it = self.the_base
        return it if it and it.place > behind else None

    def compact(self, base: Base, term: int) -> bool:
        with self.changed:
            if self.term != term:
                return False
            self.the_base = base
            self.records = {at: it for at, it in self.records.items() if at >= base.place}
            return True

    def watch(self, seconds: float) -> None:
        with self.changed:
            self.changed.wait(min(seconds, 0.05))

    def resign(self, term: int) -> None:
        with self.changed:
            if self.term == term:
                self.holder = None
                self.changed.notify_all()


class MemoryLog:
    """One node's way to it: to the store itself, or to what stands for it in another process."""

    def __init__(self, store: Any, who: str) -> None:
        self.store, self.who = store, who

    def lead(self) -> Token | None:
        token: Token | None = self.store.lead(self.who)
        return token

    def leader(self) -> str | None:
        found: str | None = self.store.leader()
        return found

    def append(self, place: int, record: Record, token: Token) -> bool:
        return bool(self.store.append(place, record, token.term))

    def read(self, place: int) -> list[tuple[int, Record]]:
        return list(self.store.read(place))

    def base(self, behind: int) -> Base | None:
        found: Base | None = self.store.base(behind)
        return found

    def compact(self, base: Base, token: Token) -> bool:
        return bool(self.store.compact(base, token.term))

    def watch(self, seconds: float) -> None:
        self.store.watch(seconds)

    def resign(self, token: Token) -> None:
        token.is_lost = True
        self.store.resign(token.term)

    def close(self) -> None:
        """Nothing is open."""


class Stores(BaseManager):
    """By this other processes come to a store."""


def shared(store: Store) -> int:
    """Has other processes come to the store, by the port that is returned."""
    Stores.register("store", callable=lambda: store)
    server: Any = Stores(("127.0.0.1", 0), b"store").get_server()
    threading.Thread(target=server.serve_forever, daemon=True).start()
    return int(server.address[1])


def reached(port: int) -> Any:
    """Returns what stands for the store of another process."""
    Stores.register("store")
    manager = Stores(("127.0.0.1", port), b"store")
    manager.connect()
    return manager.store()  # type: ignore[attr-defined]


class Node:
    """A member, and what it tells."""

    def __init__(self, store: Store, who: str, head: Sequence[str]) -> None:
        self.member = Member(MemoryLog(store, who), who, head, self)
        self.token: Token | None = None
        self.leader: str | None = None
        self.why: str | None = None
        self.fault: SessionFault | None = None
        self.holds = ""
        self.names: list[str] = []
        self.answers: list[str] = []
        self.member.thread.start()

    def leads(self, token: Token, holds: str, names: Iterable[str]) -> None:
        self.answers = []
        self.holds, self.names, self.token = holds, list(names), token

    def follows(self, leader: str | None, why: str | None) -> None:
        self.token, self.leader, self.why = None, leader, why or self.why

    def unreached(self, why: InDoubt) -> None:
        self.why = str(why)

    def answered(self, answers: Sequence[str]) -> None:
        self.answers += answers

    def ended(self, fault: SessionFault) -> None:
        self.fault = fault

    def ask(self, *lines: str) -> int:
        """Sends lines, for the term in which the node leads. Returns how many."""
        self.member.asked.put((self.token.term if self.token else 0, list(lines)))
        return len(lines)

    def end(self) -> None:
        self.member.is_ending = True
        self.member.thread.join(10)


if __name__ == "__main__":
    number, name, *lines = sys.argv[1:]
    NodeProcess(MemoryLog(reached(int(number)), name), name, lines).run()
