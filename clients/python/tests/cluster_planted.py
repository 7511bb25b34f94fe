#!/usr/bin/env python3
"""cluster_planted.py [--postgres]: errors planted in a copy of the package, whose nodes run with the faults
of cluster_faults.py: each must be found, by what is said of it. The last line is 'N passed, M failed'.
"""
from __future__ import annotations

import re
import shutil
import sys
import tempfile
from collections.abc import Sequence
from dataclasses import dataclass
from pathlib import Path

import covetrivet
from callers import Wrong
from cluster_faults import run
from machines import Network

APPENDED = """        if not self.log.append(place, record, token):
            raise Deposed("another node leads")
        answers = replica.feed(place, record)
"""


# the seeds of the runs in one of which an error is to be found
TRIES = 1, 2, 3
ANYWAY = "on conflict (log, place) do update set record = excluded.record"


@dataclass(frozen=True)
class Planted:
    """An error: in which files what stands there would be what else, the faults by which it is found, and
    what is said of it.
    """

    what: str
    edits: Sequence[tuple[str, str, str]]
    kinds: Sequence[str]
    said: str


PLANTED = [
    Planted(
        "a leader that answers before the append came back",
        [
            (
                "member.py",
                APPENDED,
                """        answers = replica.feed(place, record)
        self.told.answered(answers)
        try:
            done = self.log.append(place, record, token)
        except InDoubt:
            done = False
        if not done:
            self.close_replica()
            raise Deposed("another node leads")
""",
            )
        ],
        ["cut leader off", "cut leader off", "cut leader off"],
        "acknowledged, and not in the log",
    ),
    Planted(
        "a leader that answers when in doubt",
        [
            (
                "member.py",
                APPENDED,
                """        try:
            done = self.log.append(place, record, token)
        except InDoubt:
            answers = replica.feed(place, record)
            self.told.answered(answers)
            self.close_replica()
            raise
        if not done:
            raise Deposed("another node leads")
        answers = replica.feed(place, record)
""",
            )
        ],
        ["cut leader off", "stop members", "cut leader off"],
        "acknowledged, and not in the log",
    ),
    Planted(
        "a compaction that deletes a record too many",
        [("etcd.py", "self.place(base.place)}", "self.place(base.place + 1)}")],
        ["kill leader", "kill leader"],
        "the log lacks record|the log has records",
    ),
    Planted(
        "a leader that was deposed, and appends all the same",
        [
            ("etcd.py", '"compare": compare, "success": acts', '"success": acts'),
            ("member.py", "if token.is_lost:", "if False:"),
        ],
        ["stop leader", "stop leader"],
        "two records|acknowledged, and not in the log|and those of n",
    ),
    Planted(
        "a session that answers otherwise",
        [
            ("replica.py", "import re\n", "import re\nimport sys\n"),
            (
                "replica.py",
                "        for line, answer in zip(lines, answers):",
                "        answers = [*answers, *['more'] * (self.place % 50 == 0 and 'n1' in sys.argv)]\n"
                "        for line, answer in zip(lines, answers):",
            ),
        ],
        ["kill leader", "kill leader"],
        "and those of n",
    ),
]


# Those of the other log.
OF_POSTGRES = [
    Planted(
        "a lease that is counted by the server's clock",
        [
            (
                "postgres.py",
                "is_over = seen[1] == FREE or time.monotonic() > self.since + self.seconds",
                "is_over = bool(self.do(BY_CLOCK, self.name))",
            ),
            (
                "postgres.py",
                "class PostgresLog:",
                'BY_CLOCK = "select 1 from covetrivet_leader where log = %s"\n'
                'BY_CLOCK += " and until < clock_timestamp()"\n\n\nclass PostgresLog:',
            ),
        ],
        ["set clock back"],
        "nobody is answered after: set clock back|followers don't say who leads",
    ),
    Planted(
        "a compaction that deletes a record too many",
        [("postgres.py", "covetrivet_log.place < put.place", "covetrivet_log.place <= put.place")],
        ["kill leader", "kill leader"],
        "the log lacks record|the log has records",
    ),
    Planted(
        "a leader that was deposed, and appends all the same",
        [
            ("postgres.py", "and term = %s for share", "and term >= %s for share"),
            ("postgres.py", "on conflict do nothing returning", f"{ANYWAY} returning"),
            ("member.py", "if token.is_lost:", "if False:"),
        ],
        ["stop leader", "stop leader"],
        "two records|acknowledged, and not in the log|and those of n",
    ),
]


def said_by(it: Planted, seed: int, folder: str, postgres: bool) -> str:
    """Runs a copy of the package with an error. Returns what is said of it, if anything is."""
    try:
        run(len(it.kinds), seed, folder, it.kinds, postgres)
    except Wrong as wrong:
        return str(wrong)
    return ""


def planted(errors: Sequence[Planted], postgres: bool) -> tuple[int, int]:
    """Returns how many of the errors were found, and how many weren't."""
    found = missed = 0
    for it in errors:
        if "cut leader off" in it.kinds and not Network.can_be():
            print(f"left out: {it.what}, for want of network namespaces")
            continue
        with tempfile.TemporaryDirectory() as folder:
            copy = Path(folder) / "covetrivet"
            shutil.copytree(Path(covetrivet.__file__).parent, copy)
            for file, old, new in it.edits:
                text = (copy / file).read_text(encoding="utf-8")
                if text.count(old) != 1:
                    raise LookupError(f"{file} has {old!r} {text.count(old)} times")
                (copy / file).write_text(text.replace(old, new), encoding="utf-8")
            # (which lines are under way when a fault comes is not the same each time)
            for seed in TRIES:
                why = said_by(it, seed, folder, postgres)
                seen = re.search(f"({it.said}).*", why)
                if seen:
                    break
            found, missed = found + bool(seen), missed + (not seen)
            print(f"found: {it.what}: {seen[0]}" if seen else f"NOT FOUND: {it.what}: {why}", flush=True)
    return found, missed


if __name__ == "__main__":
    is_postgres = sys.argv[1:] == ["--postgres"]
    were_found, were_missed = planted(OF_POSTGRES if is_postgres else PLANTED, is_postgres)
    print(f"{were_found} passed, {were_missed} failed")
    sys.exit(were_missed > 0)
