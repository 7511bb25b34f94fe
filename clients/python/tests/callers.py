"""Clients of a cluster of nodes, which write down what they were answered, and a check of all of it against
the log.

Nobody sends a line again whose answer didn't come: it may have been performed or not. So each line with a
number of its own is in the log once at most.
"""
from __future__ import annotations

import random
import socket
import threading
import time
from collections.abc import Callable, Iterator, Sequence
from dataclasses import dataclass, field

from covetrivet.replica import Replica
from covetrivet.shared_log import Base, Record

NOTICE = "covetrivet: "
SLOW, QUICK = 12.0, 0.7


class Unknown(Exception):
    """No answer came."""


@dataclass
class Call:
    """An answered line: when it was sent, and when answered."""

    line: str
    answer: str
    sent: float
    answered: float


@dataclass
class Caller:
    """A client with one connection, which sends a line at a time to whichever node leads."""

    paths: Sequence[str]
    dice: random.Random
    calls: list[Call] = field(default_factory=list)
    unknown: int = 0
    refused: int = 0
    connection: socket.socket | None = None
    rest: bytes = b""
    at: int = 0

    def ask(self, line: str) -> str:
        """Returns the answer. Unknown where none comes: then the next line goes to another node."""
        sent = time.monotonic()
        try:
            if not self.connection:
                self.connection = socket.socket(socket.AF_UNIX)
                # (some wait until a leader that was stopped goes on)
                self.connection.settimeout(SLOW if self.dice.random() < 0.4 else QUICK)
                self.connection.connect(self.paths[self.at % len(self.paths)])
                self.rest = b""
            self.connection.sendall(f"{line}\n".encode("ascii"))
            answer = self.read()
        except OSError as fault:
            answer = f"{NOTICE}{fault}"
        if answer.startswith(NOTICE) or not answer:
            self.leave()
            self.refused += "this node follows" in answer
            self.unknown += "this node follows" not in answer
            raise Unknown(answer)
        self.calls.append(Call(line, answer, sent, time.monotonic()))
        return answer

    def read(self) -> str:
        while b"\n" not in self.rest:
            some = self.connection.recv(65536) if self.connection else b""
            if not some:
                return ""
            self.rest += some
        line, _, self.rest = self.rest.partition(b"\n")
        return line.decode("ascii")

    def leave(self) -> None:
        self.at += 1
        if self.connection:
            self.connection.close()
            self.connection = None


class Traffic:
    """Threads of callers: some submit orders, and each of some workers takes what waits, and replies."""

    def __init__(self, paths: Sequence[str], submitters: int, workers: Sequence[str], seed: int) -> None:
        self.callers: list[Caller] = []
        self.is_over = self.is_submitting = False
        acts: list[Callable[[Caller], Iterator[None]]] = []
        acts += [lambda it, at=at: self.submit(it, at) for at in range(submitters)]  # type: ignore[misc]
        acts += [lambda it, name=name: self.work(it, name) for name in workers]  # type: ignore[misc]
        self.threads = []
        for at, act in enumerate(acts):
            caller = Caller(paths, random.Random(f"{seed} {at}"), at=at)
            self.callers.append(caller)
            self.threads.append(threading.Thread(target=self.run, args=(caller, act), daemon=True))

    def run(self, caller: Caller, act: Callable[[Caller], Iterator[None]]) -> None:
        going = act(caller)
        while not self.is_over:
            try:
                next(going)
            except Unknown:
                going = act(caller)
                time.sleep(0.05)

    def submit(self, caller: Caller, at: int) -> Iterator[None]:
        while True:
            number = len(caller.calls) + caller.unknown + caller.refused
            if self.is_submitting:
                answer = caller.ask(f"submit 1 {at} {number}")
                time.sleep(0.2 if answer.startswith("refused ") else 0.002)
            else:
                time.sleep(0.05)
            yield

    def work(self, caller: Caller, name: str) -> Iterator[None]:
        while True:
            answer = caller.ask(f"claim {name}")
            if answer == f"{name} busy":
                caller.ask(f"abort {name}")
            elif answer.startswith(f"{name} work "):
                root, _, body = answer.split(" ")[8:11]
                yield
                caller.ask(f"commit {name} 15:{body.split(':')[0]}:{body.split(':')[1]}")
                yield
                caller.ask(f"collect {root}")
            else:
                time.sleep(0.02)
            yield

    def begin(self) -> None:
        self.is_submitting = True
        for it in self.threads:
            it.start()

    def end(self) -> None:
        self.is_over = True
        for it in self.threads:
            it.join(SLOW + 5)
        for caller in self.callers:
            caller.leave()

    def answered(self) -> int:
        return sum(len(it.calls) for it in self.callers)


class Wrong(Exception):
    """Something is not as it has to be."""


def replayed(head: Sequence[str], records: Sequence[Record]) -> tuple[list[tuple[str, str]], list[str]]:
    """Returns the lines of a log with the answers of a session of our own, and the digest at each place."""
    performed: list[tuple[str, str]] = []
    replica = Replica(Base(0, "", head))
    digests = [replica.digest]
    with replica:
        for place, record in enumerate(records):
            performed += zip(record.lines, replica.feed(place, record))
            digests.append(replica.digest)
    return performed, digests


def check(callers: Sequence[Caller], performed: Sequence[tuple[str, str]]) -> None:
    """Wrong unless each answer is that of the log to such a line, in the order in which each caller was
    answered, and in one that fits the time: what was answered before a line was sent stands before it. And
    each submit stands in the log once.
    """
    submits = [line for line, _ in performed if line.startswith("submit ")]
    if len(submits) != len(set(submits)):
        raise Wrong("a line was performed twice")
    places: list[tuple[int, Call]] = []
    where: dict[tuple[str, str], list[int]] = {}
    for at, pair in enumerate(performed):
        where.setdefault(pair, []).append(at)
    for caller in callers:
        behind = -1
        for call in caller.calls:
            found = [at for at in where.get((call.line, call.answer), ()) if at > behind]
            if not found:
                raise Wrong(f"acknowledged, and not in the log: {call.line!r} -> {call.answer!r}")
            behind = found[0]
            places.append((behind, call))
    places.sort(key=lambda it: it[0])
    latest = 0.0
    for at, call in places:
        if call.answered < latest:
            raise Wrong(f"answered before a line was sent that stands before it, at {at}: {call}")
        # (what has no number of its own may have been matched with an earlier one)
        if has_number(call):
            latest = max(latest, call.sent)


def has_number(call: Call) -> bool:
    return call.line.startswith("submit ") or " work " in call.answer or " done " in call.answer
