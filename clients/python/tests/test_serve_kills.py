"""A server over a journal, its session's process, clients and workers are killed in any order at random
moments. Each answer that was read is held against what a session without a journal and without a kill tells
of the journal's lines. A line that only asked needn't be among them: its answer is one that such a session
would tell at some moment between the lines before and behind it.
"""
from __future__ import annotations

import os
import random
import signal
import subprocess
import sys
import tempfile
import textwrap
import time
import unittest
from collections import Counter
from collections.abc import Sequence
from dataclasses import dataclass
from pathlib import Path
from unittest import mock

from covetrivet import program
from covetrivet.journal import lines_in
from covetrivet.lines import is_asked
from covetrivet.wire import Answers
from serving import SECONDS, Client, Serving

WORKERS = "packer", "other"
HEAD = ["limit 7", "server till eager 2 1 add", *(f"worker {it} 1" for it in WORKERS)]
# (by hand more: COVETRIVET_TEST_KILLS=300)
KILLS, OF_ONE_JOURNAL = int(os.environ.get("COVETRIVET_TEST_KILLS", "12")), 25
EARLY = Path(__file__).resolve().parents[3] / "tools" / "wrong_journals.py"

# A client: it submits orders with keys of its own, or has a worker reply to them. It writes down each line
# that is answered, once it has read the answer.
PROCESS = textwrap.dedent(
    """
    import os, socket, sys, time
    path, noted, kind, first = sys.argv[1:]
    file = os.open(noted, os.O_WRONLY | os.O_APPEND | os.O_CREAT)

    def ask(reader, it, *lines):
        it.sendall("".join(f"{line}\\n" for line in lines).encode())
        told = []
        for line in lines:
            answer = reader.readline().decode()
            if not answer.endswith("\\n") or answer.startswith("covetrivet: "):
                raise OSError
            os.write(file, f"{line}\\t{answer}".encode())
            told.append(answer.split())
        return told

    def go_on(reader, it):
        global first
        if kind == "client":
            while True:
                keys = range(int(first), int(first) + 3)
                first = int(first) + 3
                ask(reader, it, *(f"submit 1 {key} 7" for key in keys))
                time.sleep(0.05)
        ask(reader, it, f"abort {kind}")
        while True:
            (told,) = ask(reader, it, f"claim {kind}")
            if told[1:2] == ["work"]:
                key = told[told.index("body") + 1].split(":")[0]
                (told,) = ask(reader, it, f"commit {kind} 15:{key}:0")
            if told == ["unknown"]:
                ask(reader, it, f"abort {kind}")
            elif told[1:2] == ["idle"]:
                time.sleep(0.01)

    while True:
        try:
            with socket.socket(socket.AF_UNIX) as it:
                it.connect(path)
                go_on(it.makefile("rb"), it)
        except OSError:
            time.sleep(0.02)
    """
)


class Wrong(Exception):
    """Something that was told isn't so."""


class Killing:
    """The processes of one journal, and what is killed of them."""

    def __init__(self, folder: str, dice: random.Random) -> None:
        self.folder, self.dice = folder, dice
        self.journal = f"{folder}/journal"
        self.killed: Counter[str] = Counter()
        self.kinds = ["client", "client", *WORKERS]
        self.many, self.at_work = 0, list[subprocess.Popen[bytes]]()
        self.server = self.served()

    def served(self) -> Serving:
        """Begins a server. The program of the one before may have its journal for a while."""
        options = "--journal", self.journal, "--orphans", "abort:0.2"
        for _ in range(12):
            server = Serving(HEAD, *options, folder=self.folder)
            try:
                return server.__enter__()
            except RuntimeError as why:
                server.__exit__(None, None, None)
                if "resource busy" not in str(why):
                    raise
        raise Wrong("the journal isn't let go")

    def process(self, kind: str) -> subprocess.Popen[bytes]:
        self.many += 1
        words = [self.server.path, f"{self.folder}/noted{self.many}", kind, str(self.many * 10000)]
        return subprocess.Popen([sys.executable, "-c", PROCESS, *words], stderr=subprocess.DEVNULL)

    def run(self, kills: int) -> None:
        try:
            self.kill_many(kills)
            self.work_off()
            self.check()
        finally:
            self.server.__exit__(None, None, None)

    def kill_many(self, kills: int) -> None:
        self.at_work = [self.process(it) for it in self.kinds]
        try:
            for _ in range(kills):
                time.sleep(self.dice.random() * 0.3)
                self.kill(self.dice.choice(["client", "worker", "server", "session"]))
            time.sleep(0.3)
        finally:
            for it in self.at_work:
                it.kill()
                it.wait()

    def kill(self, what: str) -> None:
        self.killed[what] += 1
        if what == "session":
            # (three that end in a row before they have answered anything are all that the server begins)
            with Client(self.server.path) as it:
                it.ask("count")
            time.sleep(self.dice.random() * 0.05)
            self.server.signal_session(signal.SIGKILL)
        elif what == "server":
            self.server.signal(signal.SIGKILL)
            self.server.end()
            self.server.__exit__(None, None, None)
            self.server = self.served()
        else:
            some = [at for at, it in enumerate(self.kinds) if (it == "client") == (what == "client")]
            at = self.dice.choice(some)
            self.at_work[at].kill()
            self.at_work[at].wait()
            self.at_work[at] = self.process(self.kinds[at])

    def work_off(self) -> None:
        """Has what is left replied to, and ends the server in order."""
        with Client(self.server.path) as it:
            for name in WORKERS:
                it.ask(f"abort {name}")
            while (words := it.ask("claim packer")[0].split(" "))[1:2] in (["work"], []):
                if words != ["unknown"]:
                    it.ask(f"commit packer 15:{words[10].split(':')[0]}:0")
        self.server.signal(signal.SIGTERM)
        status, _, errors = self.server.end()
        self.server.__exit__(None, None, None)
        if status or "Traceback" in errors:
            raise Wrong(f"the server ended with {status}: {errors}")

    def check(self) -> None:
        lines = list(lines_in(self.journal))
        moments = moments_of(lines)
        orders = dict[int, str]()
        for number in range(1, self.many + 1):
            for line, answer in self.noted(number, moments):
                if answer.startswith("submitted "):
                    orders[int(line.split(" ")[2])] = answer.split(" ")[1]
        if not orders:
            raise Wrong("no order was told")
        answers = told_of([*lines, *(f"reply {it}" for it in orders.values())])[-len(orders) :]
        for key, answer in zip(orders, answers):
            replies = [it.split(":")[1] for it in answer.split(" ")[2:]]
            if replies != [str(key)]:
                raise Wrong(f"order {key} has the replies {replies}")

    def noted(self, number: int, moments: Sequence[Moment]) -> list[tuple[str, str]]:
        """Returns what one process was answered. Wrong where it isn't what a session tells, in this order."""
        with open(f"{self.folder}/noted{number}", "a+", encoding="ascii") as file:
            file.seek(0)
            whole = file.read().split("\n")[:-1]
        told = [it.partition("\t") for it in whole]
        found = [(line, answer) for line, _, answer in told if answer != "unknown"]
        # (the first command is the server's own)
        at = 0
        for it in found:
            if is_only_asked(*it):
                at = next((then for then in range(at, len(moments)) if moments[then].tells(*it)), -1)
            else:
                at = next((then for then in range(at + 1, len(moments)) if moments[then].done == it), -1)
            if at < 0:
                raise Wrong(f"process {number} was told {it}, and no session behind what it was told before")
        return found


def is_only_asked(line: str, answer: str) -> bool:
    """Whether this line of a process has changed nothing: a claim that took nothing."""
    return line.startswith("claim ") and answer.split(" ")[1] in ("idle", "busy")


@dataclass(frozen=True)
class Moment:
    """A line of the journal with its answer, and how things stand behind it."""

    done: tuple[str, str]
    waiting: bool
    at_work: frozenset[str]

    def tells(self, line: str, answer: str) -> bool:
        """Whether a claim that takes nothing would be answered so now."""
        name = line.split(" ")[1]
        if name in self.at_work:
            return answer == f"{name} busy"
        return not self.waiting and answer == f"{name} idle"


def moments_of(lines: Sequence[str]) -> list[Moment]:
    """Returns them of a journal's lines that have answers, by a session that is also asked behind each."""
    behind = [it for it in lines[len(HEAD) :] if is_asked(it.encode("latin-1"))]
    asking = [*lines[: len(HEAD)], *(said for it in behind for said in (it, "depth", "holds"))]
    answers = told_of(asking)
    moments = []
    for line, answer, depth, holds in zip(behind, answers[::3], answers[1::3], answers[2::3], strict=True):
        stages = [it.split(":") for it in depth.split(" ")[1:]]
        waiting = any(stage == "1" and number != "0" for stage, number, *_ in stages)
        at_work = frozenset(it.split(":")[0] for it in holds.split(" ")[1:])
        moments.append(Moment((line, answer), waiting, at_work))
    return moments


def told_of(lines: Sequence[str]) -> list[str]:
    """Returns the answers of a session without a journal to these lines, but for its final ones."""
    given = "".join(f"{it}\n" for it in lines).encode("latin-1")
    words, pipe = program.find(), subprocess.PIPE
    run = subprocess.run(words, input=given, stdout=pipe, check=True, timeout=20 * SECONDS)
    answers = Answers()
    answers.add(run.stdout)
    return [it for it in answers.take(answers.whole()) if not it.startswith("final ")]


class ServeKills(unittest.TestCase):
    def test_all_of_them_are_killed(self) -> None:
        killed: Counter[str] = Counter()
        for seed in range(-(-KILLS // OF_ONE_JOURNAL)):
            with tempfile.TemporaryDirectory() as folder, self.subTest(seed):
                it = Killing(folder, random.Random(seed))
                it.run(min(KILLS - killed.total(), OF_ONE_JOURNAL))
                killed += it.killed
        if KILLS > OF_ONE_JOURNAL:
            print(dict(killed))

    def test_a_session_that_answers_too_early(self) -> None:
        """Some program answers before the journal has the line. A kill takes the line then."""
        found = " ".join(program.find())
        with tempfile.TemporaryDirectory() as folder:
            name = f"{folder}/early"
            with open(name, "w", encoding="ascii") as file:
                early = f"exec {sys.executable} {EARLY} early {found}"
                file.write(f'#!/bin/sh\n[ $# != 0 ] || exec {found}\n{early} "$@"\n')
            os.chmod(name, 0o755)
            with mock.patch.dict(os.environ, {program.VARIABLE: name}):
                for seed in range(5):
                    with tempfile.TemporaryDirectory() as own:
                        try:
                            Killing(own, random.Random(seed)).run(8)
                        except Wrong as why:
                            self.assertRegex(str(why), "was told|has the replies")
                            return
        self.fail("it isn't found")


if __name__ == "__main__":
    unittest.main()
