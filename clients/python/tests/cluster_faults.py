#!/usr/bin/env python3
"""cluster_faults.py [--postgres] [FAULTS [SEED]]: three nodes and three members of etcd, or a PostgreSQL,
clients at work, and faults: nodes and members are killed, stopped and cut off. Then all that was answered is
held against the log.

- Each answer is that of the log to this line, in each caller's order, and in one that fits the time.
- After each fault somebody is answered again. No node ends by itself.
- All nodes come to one place with the same answers, which are those of a session of our own that performs
  all records from the first one on; so does a node that begins again behind the last dump.
- The records behind a dump are deleted, and no others.
"""
from __future__ import annotations

import contextlib
import os
import random
import re
import signal
import sys
import time
from collections import Counter
from collections.abc import Sequence

from covetrivet import SessionFault
from covetrivet.etcd import EtcdLog
from covetrivet.postgres import Connection, PostgresLog
from covetrivet.shared_log import SharedLog
from callers import Traffic, Wrong, check, replayed
from log_history import EtcdHistory, History, PostgresHistory, all_written
from machines import LEASE, MACHINES, PREFIX, Machines, children, comes

WORKERS = "wa", "wb", "wc"
SMALL = ["limit 7", "keep 100", *(f"worker {it} 1" for it in WORKERS)]
# (more by the environment, for a machine that is very busy)
SECONDS_TO_GO_ON = float(os.environ.get("COVETRIVET_TEST_SECONDS", "20"))
# A server and its node are processes that may be lost alone.
OF_PROCESSES = "kill leader's server", "kill leader's node", "stop leader's node"


class Run:
    """One run: machines with traffic, and faults among them."""

    def __init__(self, machines: Machines, seed: int) -> None:
        self.machines, self.dice = machines, random.Random(seed)
        paths = [machines.socket_of(it) for it in MACHINES]
        self.traffic = Traffic(paths, 4, WORKERS, seed)
        self.counts: Counter[str] = Counter()
        # of each fault its kind, when it began, and when somebody was answered again
        self.faults: list[tuple[str, float, float]] = []

    # ---- faults

    def kinds(self) -> list[str]:
        cut = ["cut leader off"] * self.machines.network.is_there
        if self.machines.postgres:
            kinds = ["kill leader", "stop leader", *cut, "stop server", "kill all", "kill session"]
            kinds += ["kill server", "end leader", "kill follower", "set clock back", "lock leader's row"]
            return [*kinds, *OF_PROCESSES]
        kinds = ["kill leader", "stop leader", *cut, "stop members", "kill all", "kill session"]
        return [*kinds, "kill member", "end leader", "kill follower", *OF_PROCESSES]

    def fault(self, kind: str) -> None:
        """Has this happen to the machine that leads, and mends it. Wrong where nobody is answered then."""
        self.counts[kind] += 1
        leader = self.machines.leader() or self.dice.choice(MACHINES)
        time.sleep(self.dice.random() * 0.5)
        begun = time.monotonic()
        before = self.traffic.answered()
        self.act(kind, leader)
        if not comes(lambda: self.traffic.answered() > before + 20, SECONDS_TO_GO_ON):
            raise Wrong(f"nobody is answered after: {kind}\n{self.said()}")
        self.faults.append((kind, begun, time.monotonic()))
        self.refuse_ended()

    def act(self, kind: str, leader: int) -> None:
        """Calls the method of this name."""
        getattr(self, kind.replace(" ", "_").replace("'", ""))(leader)

    def kill_leader(self, leader: int) -> None:
        self.machines.end(f"node{leader}", signal.SIGKILL)
        time.sleep(LEASE + 1.5)
        self.machines.node(leader)

    def kill_one_process(self, number: int, process: int | None, leader: int) -> None:
        """Has this come to one of a node's processes, and begins the node again once it has ended."""
        if process:
            with contextlib.suppress(ProcessLookupError):
                os.kill(process, number)
        comes(lambda: self.machines.processes[f"node{leader}"].poll() is not None, 10)
        self.machines.end(f"node{leader}", signal.SIGKILL)
        self.machines.node(leader)

    def kill_leaders_server(self, leader: int) -> None:
        """Its node goes on alone for a moment, and leaves."""
        self.kill_one_process(signal.SIGKILL, self.machines.processes[f"node{leader}"].pid, leader)

    def kill_leaders_node(self, leader: int) -> None:
        self.kill_one_process(signal.SIGKILL, self.machines.node_of(leader), leader)

    def stop_leaders_node(self, leader: int) -> None:
        """Its server goes on, and takes lines meanwhile."""
        node = self.machines.node_of(leader)
        for number, seconds in (signal.SIGSTOP, LEASE + 2), (signal.SIGCONT, 0):
            if node:
                os.kill(node, number)
            time.sleep(seconds)

    def set_clock_back(self, leader: int) -> None:
        """As if the clock of PostgreSQL had been set back by an hour, and the leader's machine were lost."""
        act = "update covetrivet_leader set until = until + interval '1 hour'"
        self.machines.signal(f"node{leader}", signal.SIGSTOP)
        self.on_postgres(act)
        self.machines.end(f"node{leader}", signal.SIGKILL)
        time.sleep(LEASE + 1.5)
        self.machines.node(leader)

    def lock_leaders_row(self, _leader: int) -> None:
        """Somebody else holds locks for a while."""
        locks = "perform 1 from covetrivet_leader for update"
        self.on_postgres(f"do $$ begin {locks}; perform pg_sleep({LEASE + 2}); end $$")

    def on_postgres(self, statement: str) -> None:
        assert self.machines.postgres
        connection = Connection(self.machines.postgres.where(), 30)
        connection.do(statement)
        connection.close()

    def end_leader(self, leader: int) -> None:
        self.machines.end(f"node{leader}", signal.SIGTERM)
        self.machines.node(leader)

    def kill_follower(self, leader: int) -> None:
        other = self.dice.choice([it for it in MACHINES if it != leader])
        self.machines.end(f"node{other}", signal.SIGKILL)
        time.sleep(3)
        self.machines.node(other)

    def stop_leader(self, leader: int) -> None:
        self.machines.signal(f"node{leader}", signal.SIGSTOP)
        time.sleep(LEASE + 2)
        self.machines.signal(f"node{leader}", signal.SIGCONT)

    def cut_leader_off(self, leader: int) -> None:
        self.machines.network.cut(leader, True)
        time.sleep(LEASE + 3)
        self.machines.network.cut(leader, False)

    def kill_session(self, leader: int) -> None:
        # (a node whose session is lost ends)
        self.kill_one_process(signal.SIGKILL, self.machines.session_of(leader), leader)

    def kill_member(self, leader: int) -> None:
        self.machines.end(f"etcd{leader}", signal.SIGKILL)
        time.sleep(1.5)
        self.machines.member(leader)

    def stop_members(self, leader: int) -> None:
        stopped = [it for it in MACHINES if it != leader]
        for it in stopped:
            self.machines.signal(f"etcd{it}", signal.SIGSTOP)
        time.sleep(LEASE + 2)
        for it in stopped:
            self.machines.signal(f"etcd{it}", signal.SIGCONT)

    def kill_server(self, _leader: int) -> None:
        self.machines.end("postgres", signal.SIGQUIT)
        time.sleep(1)
        if self.machines.postgres:
            self.machines.postgres.begin()

    def stop_server(self, _leader: int) -> None:
        """Stops all of PostgreSQL's processes for a while, and has them go on."""
        server = self.machines.processes["postgres"].pid
        of = children(server)
        for number, seconds in (signal.SIGSTOP, LEASE + 2), (signal.SIGCONT, 0):
            for it in server, *of:
                with contextlib.suppress(ProcessLookupError):
                    os.kill(it, number)
            time.sleep(seconds)

    def kill_all(self, _leader: int) -> None:
        for it in MACHINES:
            self.machines.end(f"node{it}", signal.SIGKILL)
            self.machines.end(f"etcd{it}", signal.SIGKILL)
        self.machines.end("postgres", signal.SIGQUIT)
        begin(self.machines)

    def refuse_ended(self) -> None:
        for it in MACHINES:
            if self.machines.processes[f"node{it}"].poll() is not None:
                raise Wrong(f"node {it} has ended by itself: {self.machines.log_of(f'node{it}')[-800:]}")

    def said(self) -> str:
        return "".join(self.machines.log_of(f"node{it}")[-400:] for it in MACHINES)

    # ---- its end

    def finish(self, log: SharedLog, history: History) -> dict[str, object]:
        """Holds all that was answered against the log. Returns figures."""
        self.traffic.is_submitting = False
        time.sleep(1)
        self.traffic.end()
        place = max(self.machines.metric(it, "place") or 0 for it in MACHINES)
        for it in MACHINES:
            self.await_place(it, place)
        self.refuse_ended()
        if not comes(self.is_leader_named, SECONDS_TO_GO_ON):
            raise Wrong(f"followers don't say who leads: {self.said()}")
        self.machines.end("node1", signal.SIGTERM)
        self.machines.node(1)
        self.await_place(1, place)
        for it in MACHINES:
            self.machines.end(f"node{it}", signal.SIGTERM)
        records, dumps = all_written(history)
        performed, digests = replayed(self.machines.head, records)
        check(self.traffic.callers, performed)
        for it in MACHINES:
            self.compare(it, place, digests)
        kept = self.kept(log, len(records))
        return {
            "records": len(records), "lines": len(performed), "dumps": dumps, "records kept": kept,
            "answers": self.traffic.answered(),
            "unknown": sum(it.unknown for it in self.traffic.callers),
            "refused by followers": sum(it.refused for it in self.traffic.callers),
            "leaders": len(re.findall("leads from place", self.said_in_all())),
        }  # fmt: skip

    def silences(self) -> dict[str, list[float]]:
        """Returns for how long nobody was answered after each fault, by kind, sorted."""
        times = sorted(it.answered for caller in self.traffic.callers for it in caller.calls)
        found: dict[str, list[float]] = {}
        for kind, begun, ended in self.faults:
            of = [it for it in times if begun - 1 < it < ended]
            found.setdefault(kind, []).append(max(b - a for a, b in zip(of, [*of[1:], ended])))
        return {kind: sorted(gaps) for kind, gaps in found.items()}

    def is_leader_named(self) -> bool:
        """Whether each other node tells its clients who leads."""
        leader = self.machines.leader()
        said = [self.machines.told_by(it) for it in MACHINES if it != leader]
        return said == [f"covetrivet: this node follows: n{leader} leads\n"] * 2

    def held_against(self, history: History) -> str:
        """Returns what else is wrong with the answers, where something was found already."""
        self.traffic.end()
        try:
            records, _ = all_written(history)
            performed, _ = replayed(self.machines.head, records)
            check(self.traffic.callers, performed)
        except (Wrong, SessionFault) as why:
            return str(why)
        return "all that was answered is in the log"

    def compare(self, machine: int, place: float, digests: Sequence[str]) -> None:
        """Wrong unless the node has come so far, with the digest of our own session there."""
        said = self.machines.log_of(f"node{machine}")
        ends = re.findall(r"ends at place (\d+), digest (\w+)", said)[-1:]
        if not ends or int(ends[0][0]) < place or digests[int(ends[0][0])] != ends[0][1]:
            raise Wrong(f"node {machine} ends at {ends}, not as our session does: {said[-400:]}")

    def await_place(self, machine: int, place: float) -> None:
        if not comes(lambda: (self.machines.metric(machine, "place") or 0) >= place, SECONDS_TO_GO_ON):
            at = self.machines.metric(machine, "place")
            node = self.machines.node_of(machine)
            if node:
                os.kill(node, signal.SIGABRT)
            time.sleep(1)
            said = self.machines.log_of(f"node{machine}")[-4000:]
            raise Wrong(f"node {machine} is at place {at}, and doesn't come to {place}: {said}")

    def said_in_all(self) -> str:
        return "".join(self.machines.log_of(f"node{it}") for it in MACHINES)

    def kept(self, log: SharedLog, end: int) -> int:
        """Returns how many records are in the log. Wrong where any behind its dump lacks, or one before it is
        there.
        """
        base = log.base(-2)
        if not base:
            raise Wrong("the log has no base")
        there: list[int] = []
        at = 0
        while records := log.read(at):
            there += [place for place, _ in records]
            at = there[-1] + 1
        if there != list(range(base.place, end)):
            has = f"{there[:3]} to {there[-3:]}"
            raise Wrong(f"the log has records {has}, its base is {base.place} and its end {end}")
        return len(there)


def begin(machines: Machines) -> None:
    """Begins the log's servers, and the nodes."""
    if machines.postgres:
        machines.postgres.begin()
    else:
        for it in MACHINES:
            machines.member(it)
    for it in MACHINES:
        machines.node(it)


def run(
    faults: int, seed: int, package: str | None = None, kinds: Sequence[str] = (), postgres: bool = False
) -> None:
    """Runs it and prints figures. Wrong where anything is."""
    begun = time.monotonic()
    with Machines(SMALL, package, postgres) as machines:
        begin(machines)
        one = Run(machines, seed)
        if not comes(machines.leader, SECONDS_TO_GO_ON):
            raise Wrong(f"nobody leads: {one.said()} {machines.log_of('etcd1')[-400:]}")
        log, history = reader(machines)
        one.traffic.begin()
        time.sleep(1)
        of = list(kinds or one.kinds())
        try:
            for at in range(faults):
                one.fault(of[at] if at < len(of) else one.dice.choice(of))
            figures = one.finish(log, history)
        except Wrong as why:
            raise Wrong(f"{why}\n{one.held_against(history)}") from why
    where = "namespaces" if machines.network.is_there else "ports of one machine"
    of_what = "PostgreSQL" if postgres else "etcd"
    print(f"{faults} faults, {of_what}, seed {seed}, over {where}, in {time.monotonic() - begun:.0f} s:")
    print("  " + ", ".join(f"{kind} {many}" for kind, many in one.counts.items()))
    print("  " + ", ".join(f"{name} {value}" for name, value in figures.items()))
    for kind, gaps in sorted(one.silences().items()):
        print(f"  nobody is answered after {kind}: {gaps[len(gaps) // 2]:.1f} s, {gaps[-1]:.1f} s at most")
    sys.stdout.flush()


def reader(machines: Machines) -> tuple[SharedLog, History]:
    if machines.postgres:
        where = machines.postgres.where()
        return PostgresLog(where, PREFIX, "reader", 1), PostgresHistory(where)
    members = [machines.client_url(it) for it in MACHINES]
    return EtcdLog(members, PREFIX, "reader", 1), EtcdHistory(members, PREFIX)


def main(words: Sequence[str]) -> int:
    try:
        postgres = words[:1] == ["--postgres"]
        words = words[postgres:]
        faults, seed = (*map(int, words), *(6, 1)[len(words) :])
        run(faults, seed, postgres=postgres)
    except Wrong as why:
        print(f"WRONG: {why}")
        print("0 passed, 1 failed")
        return 1
    print("1 passed, 0 failed")
    return 0


if __name__ == "__main__":
    sys.exit(main(sys.argv[1:]))
