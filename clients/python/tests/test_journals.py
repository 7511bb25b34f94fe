"""Sessions with a journal, whose client or program is killed."""
from __future__ import annotations

import functools
import hashlib
import os
import random
import re
import subprocess
import sys
import tempfile
import threading
import time
import unittest
from collections.abc import Sequence
from unittest import mock

from covetrivet import (
    Counts, Draft, JournalFault, LogFault, NotUnderstood, Session, SessionEnded, journal, kill, refusals,
    submit,
)  # fmt: skip
from covetrivet.journal import lines_in

HEAD = ["server till eager 2 1 add", "worker clerk 1"]
LARGEST = 2**64 - 1


@functools.cache
def first_line() -> str:
    """Returns the line that a journal begins with, in which its version is."""
    with tempfile.TemporaryDirectory() as folder:
        with Session.open(f"{folder}/journal", []):
            pass
        with open(f"{folder}/journal", encoding="latin-1") as file:
            return file.readline().rstrip("\n")


def text_of(lines: Sequence[str]) -> bytes:
    """Returns the text of a journal that has these lines as one batch."""
    begins = len(first_line()) + 1
    text = "".join(f"{it}\n" for it in [first_line(), *lines]).encode("ascii")
    text += f"# {len(text)} {begins} ".encode("ascii")
    return text + f"{hashlib.sha256(text).hexdigest()}\x17\n".encode("ascii")


class Journals(unittest.TestCase):
    def setUp(self) -> None:
        folder = tempfile.TemporaryDirectory()
        self.addCleanup(folder.cleanup)
        self.path = f"{folder.name}/orders.journal"

    def lines(self) -> list[str]:
        return list(lines_in(self.path))

    def write(self, text: bytes) -> None:
        with open(self.path, "wb") as file:
            file.write(text)

    def lost(self, session: Session) -> None:
        """Has the program be killed, as with its machine's power."""
        session.process.kill()
        with self.assertRaises(SessionEnded):
            session.count()

    def test_a_session_goes_on(self) -> None:
        with Session.open(self.path, HEAD) as session:
            self.assertEqual((session.recovered, session.lines), (0, 3))
            for customer in range(4):
                session.submit(1, customer, 10)
            session.claim("clerk")
            session.commit("clerk", Draft(2, 0, 10), Draft(15, 0, 1))
            session.turn("till")
            session.claim("clerk")
            before = session.lines
            self.lost(session)
        self.assertEqual(before, 3 + 4 + 4)
        for _life in range(3):
            with Session.open(self.path, HEAD) as session:
                # Order 1 is in hand, as it was: 2 and 3 wait, and the reply. (Output 4 is the till's.)
                self.assertEqual(session.recovered, before)
                self.assertEqual(session.count(), Counts(3, 1, 2, 0, 0))
                with self.assertRaises(refusals.Busy):
                    session.claim("clerk")
                self.assertEqual([it.words[0] for it in session.reply(0)], [0])
                # (all of these only asked)
                self.assertEqual(session.lines, before + 3)
                self.lost(session)
        self.assertEqual(self.lines()[:3], [*HEAD, "count"])
        with Session.open(self.path) as session:
            session.commit("clerk", Draft(15, 1, 1))
            # (2 and 3 wait, and both replies)
            self.assertEqual(session.count(), Counts(4, 0, 3, 0, 0))

    def test_a_new_journal_of_a_dump(self) -> None:
        with Session.open(self.path, [*HEAD, "worker late 1"]) as session:
            for customer in range(3):
                session.submit(1, customer, 10)
            session.claim("clerk")
            session.claim("late")
            session.kill(0)
            self.lost(session)
        with Session.open(self.path) as session:
            with self.assertRaises(refusals.Lost) as lost:
                session.commit("clerk")
            self.assertEqual(lost.exception.element, 0)
            session.commit("late", Draft(15, 2, 1))
            self.assertEqual([it.words[0] for it in session.reply(1)], [2])
            dumped = session.dump().lines
        with Session.open(f"{self.path}.next", dumped) as session:
            self.assertEqual(session.count(), Counts(2, 0, 1, 0, 1))
            self.assertEqual(session.waiting(1), (2,))

    def test_a_long_journal(self) -> None:
        """The program makes it short by itself, once a million bytes have come. Nothing is lost by that."""
        with Session.open(self.path, ["keep 1", *HEAD]) as session:
            session.submit(1, 7)
            session.claim("clerk")
            for first in range(1, 30_001, 1000):
                with session.batch() as batch:
                    for it in range(first, first + 1000):
                        batch.add(submit(3, *[LARGEST] * 4))
                        batch.add(kill(it))
            sent = session.lines
            self.lost(session)
        # (three million came)
        self.assertLess(sum(map(len, self.lines())), 1_500_000)
        with Session.open(self.path) as session:
            self.assertEqual(session.recovered, sent)
            self.assertEqual(session.commit("clerk", Draft(15, 8)).outputs, range(30_001, 30_002))
            self.assertEqual([it.words[0] for it in session.reply(0)], [8])
            self.assertEqual(session.count(), Counts(1, 0, 1, 0, 30_000))

    def test_an_end_in_order_is_not_kept(self) -> None:
        for _life in range(2):
            with Session.open(self.path, HEAD) as session:
                if not session.recovered:
                    session.submit(1, 7)
                    session.claim("clerk")
                self.assertEqual(session.count(), Counts(0, 1, 0, 0, 0))
            self.assertEqual(session.finals, {"till": (0,)})

    def test_the_head_is_not_sent_again(self) -> None:
        with Session.open(self.path, HEAD) as session:
            session.submit(1, 7)
        lines = self.lines()
        for head in (HEAD, [*HEAD, "worker late 2", "worker later 3", "worker last 4"], ["keep 8"]):
            with Session.open(self.path, head) as session:
                self.assertEqual(session.recovered, len(lines))
        self.assertEqual(self.lines(), lines)

    def test_a_head_that_is_refused_is_not_kept(self) -> None:
        for wrong in "worker late 1000", "wroker late 2":
            with self.assertRaises((refusals.BadNumber, refusals.Syntax)) as refused:
                with Session.open(self.path, [*HEAD, wrong, "keep 8"]):
                    pass
            self.assertEqual(refused.exception.command, wrong)
        with Session.open(self.path, [*HEAD, "worker late 2"]) as session:
            self.assertEqual((session.recovered, session.claim("late")), (0, None))

    def test_a_beginning_that_was_cut_short(self) -> None:
        element = "element {} 1:5:6:7:8 {} client nobody 0 waiting 0"
        head = [*HEAD, "numbers 2 0 0", element.format(0, 0), element.format(1, 1)]
        whole = [*head, "restore"]
        for count in range(1, len(whole) + 1):
            with self.subTest(count):
                self.write(text_of(whole[:count]))
                with Session.open(self.path, head) as session:
                    self.assertEqual(session.recovered, count)
                    self.assertEqual(session.count(), Counts(2, 0, 0, 0, 0))
                self.assertEqual(self.lines(), whole)
        self.write(text_of(["limit 2", "keep 8"]))
        with self.assertRaisesRegex(JournalFault, "another head"), Session.open(self.path, head):
            pass
        self.assertEqual(self.lines(), ["limit 2", "keep 8"])

    def test_commands_behind_the_head(self) -> None:
        begin = [*HEAD, "submit 1 5 6", "# a comment", "submit 1 7 8"]
        whole = [*HEAD, "count", "submit 1 5 6", "# a comment", "submit 1 7 8"]
        for count in range(len(whole) + 1):
            self.write(text_of(whole[:count]))
            with Session.open(self.path, begin) as session:
                self.assertEqual(session.count().waiting, 2)
            self.assertEqual(self.lines(), whole)

    def test_what_is_no_journal(self) -> None:
        with self.assertRaisesRegex(JournalFault, "there is no journal"), Session.open(self.path):
            pass
        self.assertEqual(os.listdir(os.path.dirname(self.path)), [])
        good = text_of([*HEAD, "count"])
        for text, why in (
            (good.replace(b"till", b"tell"), "damaged from line 2 on"),
            (b"keep 8\n", "no journal"),
            (good.replace(first_line().encode("ascii"), b"# covetrivet journal 1"), "of another version"),
        ):
            self.write(text)
            with self.assertRaisesRegex(JournalFault, why), Session.open(self.path, HEAD):
                pass
            with open(self.path, "rb") as file:
                self.assertEqual(file.read(), text)
        self.write(text_of([]))
        with self.assertRaisesRegex(JournalFault, "has no lines"), Session.open(self.path):
            pass
        with self.assertRaises(JournalFault), Session.open(f"{self.path}/nowhere", HEAD):
            pass

    def test_two_sessions(self) -> None:
        with mock.patch.object(journal, "SECONDS_TO_LET_GO", 0.2), Session.open(self.path, HEAD) as session:
            with self.assertRaisesRegex(JournalFault, "busy"), Session.open(self.path, HEAD):
                pass
            self.assertEqual(session.submit(1, 7).element, 0)
            # One that waits goes on once the other one has ended.
            threading.Timer(0.1, session.process.kill).start()
            with mock.patch.object(journal, "SECONDS_TO_LET_GO", 30), Session.open(self.path) as other:
                self.assertEqual(other.recovered, 4)
            with self.assertRaises(SessionEnded):
                session.count()

    def test_a_program_without_journals(self) -> None:
        program = f"{os.path.dirname(self.path)}/program"
        for act, fault in ("exit 64", SessionEnded), ("echo submitted 0; cat", JournalFault):
            with open(program, "w", encoding="ascii") as file:
                file.write(f"#!/bin/sh\n{act}\n")
            os.chmod(program, 0o755)
            with self.assertRaises(fault), Session.open(self.path, HEAD, program):
                pass

    def test_a_program_without_tags(self) -> None:
        program = ["sh", "-c", "echo recovered 9; sed -u 's/.*/refused line 1: 1 Syntax/'", "sh"]
        with self.assertRaises(NotUnderstood), Session.open(self.path, HEAD, program, 20) as session:
            session.count()

    def test_a_journal_is_no_log(self) -> None:
        with Session.open(self.path, HEAD) as session:
            with self.assertRaises(LogFault):
                session.shorten_log()
            self.assertEqual(session.count().waiting, 0)

    def test_a_client_is_killed(self) -> None:
        """Each order that a killed client was told of is there once, and so is each that was asked for before
        another one was told."""
        chance = random.Random(5)
        child = (
            "import sys\nfrom covetrivet import Session\n"
            f"with Session.open({self.path!r}, ['keep 1']) as session:\n"
            "    print('recovered', session.recovered, flush=True)\n"
            "    while True: print(session.submit(1, 7).element, flush=True)\n"
        )
        known = -1
        for _life in range(6):
            client = subprocess.Popen([sys.executable, "-c", child], stdout=subprocess.PIPE, text=True)
            try:
                assert client.stdout
                recovered = int(client.stdout.readline().split()[1])
                # (a head of one line and the command that ends it)
                self.assertGreaterEqual(max(0, recovered - 2), known + 1)
                known = max(0, recovered - 2) - 1
                for _ in range(chance.randrange(30)):
                    self.assertEqual(int(client.stdout.readline()), known + 1)
                    known += 1
                time.sleep(chance.random() * 0.01)
            finally:
                client.kill()
                rest, _ = client.communicate()
            for told in rest.splitlines(keepends=True):
                if told.endswith("\n"):
                    self.assertEqual(int(told), known + 1)
                    known += 1

    def test_no_line_of_a_killed_client_is_torn(self) -> None:
        chance = random.Random(6)
        child = (
            "from covetrivet import Session\n"
            f"with Session.open({self.path!r}, ['keep 8']) as session:\n"
            "    print('begun', flush=True)\n"
            "    while True: session._exchange(['#' + 'x' * 150] * 2000 + ['count'], 1)\n"
        )
        for _life in range(4):
            client = subprocess.Popen([sys.executable, "-c", child], stdout=subprocess.PIPE, text=True)
            try:
                assert client.stdout
                self.assertEqual(client.stdout.readline(), "begun\n")
                time.sleep(chance.random() * 0.1)
            finally:
                client.kill()
                client.communicate()
        with Session.open(self.path):
            lines = self.lines()
            # (of more than a mebibyte of lines the first have become a dump, which stands for them)
            dump = re.match(r"# covetrivet: (\d+) lines for \d+\x02$", lines[0])
            behind = lines[1 + int(dump[1]):] if dump else lines
            self.assertLessEqual(set(behind), {"keep 8", "count", "#" + "x" * 150})
            self.assertTrue(dump or "keep 8" in behind)


if __name__ == "__main__":
    unittest.main()
