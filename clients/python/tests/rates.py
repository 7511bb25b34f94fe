#!/usr/bin/env python3
"""Measures a server, by hand: rates.py [SECONDS [etcd|postgres|stuck [ROUNDS]]]. How many lines a second are
answered, and after how long. With a second word it is the leader of three nodes, over three members of etcd
on this machine or a PostgreSQL; or clients are measured without and with 50 others, half of which send and
read nothing, and half of which say nothing, by turns, in 2 rounds or so many. Of these the least count: the
exit status is 0 where beside the others half of the exchanges, and 99 of 100, take at most twice as long.

Each client sends so many lines at once and waits for their answers. All clients of a row are in one process,
so where there are many it takes a processor too.
"""
from __future__ import annotations

import contextlib
import selectors
import socket
import sys
import time

from covetrivet import Session, submit
from cluster_faults import begin
from machines import Machines, comes
from serving import Client, Serving

MANY = 1, 10, 100, 950
ROWS = (1, 1), (1, 10), (1, 64), (10, 1), (100, 1), (100, 10), (1000, 1)


class Asking:
    """A client, how many answers it has since it sent lines, and when that was."""

    def __init__(self, it: socket.socket) -> None:
        self.socket = it

    def send(self, sent: bytes) -> None:
        self.come, self.since = 0, time.perf_counter()
        self.socket.send(sent)


def measure(path: str, clients: int, at_once: int, seconds: float) -> tuple[float, list[float]]:
    """Returns the lines a second, and how long each exchange took, sorted."""
    sent = b"read 0\n" * at_once
    took: list[float] = []
    with contextlib.ExitStack() as stack, selectors.DefaultSelector() as selector:
        for _ in range(clients):
            it = socket.socket(socket.AF_UNIX)
            it.connect(path)
            stack.callback(it.close)
            client = Asking(it)
            selector.register(it, selectors.EVENT_READ, client)
            client.send(sent)
        begun = time.perf_counter()
        while time.perf_counter() < begun + seconds:
            for key, _ in selector.select():
                client = key.data
                client.come += client.socket.recv(65536).count(b"\n")
                if client.come == at_once:
                    took.append(time.perf_counter() - client.since)
                    client.send(sent)
        spent = time.perf_counter() - begun
        # (so that they are gone before the clients of the next row come, for which there is just room)
        for key in list(selector.get_map().values()):
            client = key.data
            while client.come < at_once:
                client.come += client.socket.recv(65536).count(b"\n")
    return len(took) * at_once / spent, sorted(took)


def main() -> int:
    seconds = float(sys.argv[1]) if len(sys.argv) > 1 else 3.0
    with Session([]) as session:
        session.submit(1, 5)
        begun, many = time.perf_counter(), 0
        while time.perf_counter() < begun + seconds:
            session.read(0)
            many += 1
        print(f"a session of one's own, a call each: {many / (time.perf_counter() - begun):.0f} a second")
    if sys.argv[2:3] == ["stuck"]:
        return tell_stuck(seconds, int(sys.argv[3]) if len(sys.argv) > 3 else 2)
    if len(sys.argv) > 2:
        with Machines([], postgres=sys.argv[2] == "postgres") as machines:
            machines.dump = 20000
            begin(machines)
            if not comes(lambda: machines.leader() and machines.metric(3, "place") is not None, 20):
                raise RuntimeError(machines.log_of("node1"))
            tell(machines.socket_of(machines.leader() or 1), seconds)
        return 0
    with Serving([], "--connections", "1000") as server:
        tell(server.path, seconds)
    return 0


def tell(path: str, seconds: float) -> None:
    with Client(path) as it:
        it.ask(submit(1, 5).line)
    for clients, at_once in ROWS:
        tell_one(path, clients, at_once, seconds)


def tell_one(path: str, clients: int, at_once: int, seconds: float, beside: str = "") -> tuple[float, float]:
    """Returns after how many microseconds half of the exchanges were over, and 99 of 100."""
    rate, took = measure(path, clients, at_once, seconds)
    half, most = took[len(took) // 2] * 1e6, took[len(took) * 99 // 100] * 1e6
    said = f"{clients} clients, {at_once} at once{beside}: {rate:.0f} a second"
    print(f"{said}; half in {half:.0f} us, 99 of 100 in {most:.0f} us", flush=True)
    return half, most


def tell_stuck(seconds: float, rounds: int) -> int:
    least: dict[tuple[int, bool], tuple[float, float]] = {}
    with Serving([], "--connections", "1000", "--slow", "10000") as alone, contextlib.ExitStack() as stack:
        beside = stack.enter_context(Serving([], "--connections", "1000", "--slow", "10000"))
        for server in (alone, beside):
            server.client().ask(submit(1, 5).line)
        for number in range(49):
            it = beside.client()
            if number % 2:
                it.socket.settimeout(0.01)
                with contextlib.suppress(TimeoutError):
                    for _ in range(1000):
                        it.send(*["count"] * 500)
        for clients in MANY * rounds:
            for server, said in (alone, ""), (beside, " beside 50"):
                took = tell_one(server.path, clients, 1, seconds, said)
                kept = least.setdefault((clients, server is beside), took)
                least[clients, server is beside] = min(kept[0], took[0]), min(kept[1], took[1])
    ratios = [(it, [b / a for a, b in zip(least[it, False], least[it, True])]) for it in MANY]
    for clients, (half, most) in ratios:
        print(f"{clients} clients beside 50: {half:.2f} of the time for half, {most:.2f} for 99 of 100")
    return int(any(max(it) > 2 for _, it in ratios))


if __name__ == "__main__":
    sys.exit(main())
