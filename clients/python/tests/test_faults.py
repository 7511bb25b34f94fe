"""What the client was found to tell wrongly, each as it was met: none of it may come again."""
from __future__ import annotations

import contextlib
import os
import signal
import sys
import tempfile
import threading
import time
import unittest
from collections.abc import Callable, Iterator
from pathlib import Path
from types import FrameType

from covetrivet import (
    Command, Counts, Draft, Session, SessionClosed, SessionEnded, count, refusals, submit,
)  # fmt: skip

NAMES = "abcdef"


class Late(Exception):
    """The time is up."""


@contextlib.contextmanager
def left_after(seconds: float) -> Iterator[None]:
    """Leaves the block by Late after so many seconds, wherever it is."""

    def leave(_signal: int, _frame: FrameType | None) -> None:
        raise Late

    before = signal.signal(signal.SIGALRM, leave)
    signal.setitimer(signal.ITIMER_REAL, seconds)
    try:
        yield
    finally:
        signal.setitimer(signal.ITIMER_REAL, 0)
        signal.signal(signal.SIGALRM, before)


def at_once(many: int, act: Callable[[int], None]) -> list[threading.Thread]:
    """Has so many threads do this, each with its number, and returns those that don't come to their end."""
    interval = sys.getswitchinterval()
    sys.setswitchinterval(1e-5)
    threads = [threading.Thread(target=act, args=(it,), daemon=True) for it in range(many)]
    try:
        for it in threads:
            it.start()
        for it in threads:
            it.join(60)
    finally:
        sys.setswitchinterval(interval)
    return [it for it in threads if it.is_alive()]


class Threads(unittest.TestCase):
    def test_each_thread_is_told_its_own_ids(self) -> None:
        told: dict[int, int] = {}

        def order(thread: int) -> None:
            for it in range(thread * 100, thread * 100 + 100):
                told[it] = session.submit(1, it, 0).element

        with Session(["worker w 1"]) as session:
            self.assertEqual(at_once(4, order), [])
            self.assertEqual(len({*told.values()}), 400)
            self.assertEqual([it for it, element in told.items() if session.read(element).words[0] != it], [])

    def test_workers_on_threads(self) -> None:
        worked: list[int] = []

        def work(thread: int) -> None:
            name = NAMES[thread]
            while found := session.claim(name):
                done = session.commit(name, Draft(15, found.words[0]))
                assert (done.element, done.unit) == (found.element, found.unit)
                worked.append(found.words[0])

        with Session([f"worker {it} 1" for it in NAMES]) as session:
            for customer in range(200):
                session.submit(1, customer)
            self.assertEqual(at_once(len(NAMES), work), [])
            self.assertEqual(sorted(worked), list(range(200)))
            self.assertEqual(session.count(), Counts(200, 0, 200, 0, 0))

    def test_batches_on_threads(self) -> None:
        told: dict[int, int] = {}

        def order(thread: int) -> None:
            for first in range(thread * 100, thread * 100 + 100, 10):
                with session.batch() as batch:
                    asked = [(it, batch.add(submit(1, it))) for it in range(first, first + 10)]
                told.update((it, later.value.element) for it, later in asked)

        with Session([]) as session:
            self.assertEqual(at_once(4, order), [])
            self.assertEqual([it for it, element in told.items() if session.read(element).words[0] != it], [])


class Exchanges(unittest.TestCase):
    HEAD = ["worker clerk 1"]

    def hold_to_step(self, session: Session, first: int) -> None:
        """Each call has its own answer; the next element to be born is `first`, or one behind it."""
        with session.batch() as batch:
            asked = [batch.add(submit(1, it)) for it in range(10, 15)]
        ids = [it.value.element for it in asked]
        self.assertIn(ids[0], (first, first + 1))
        self.assertEqual([session.read(it).words[0] for it in ids], list(range(10, 15)))
        self.assertTrue(session.drain())

    def test_a_call_that_is_left(self) -> None:
        with Session(self.HEAD) as session:
            session.submit(1, 1, 1)
            session.process.send_signal(signal.SIGSTOP)
            with self.assertRaises(Late), left_after(0.3):
                session.submit(1, 2, 2)
            session.process.send_signal(signal.SIGCONT)
            self.hold_to_step(session, 1)
        self.assertEqual(session.finals, {})

    def test_a_call_that_takes_too_long(self) -> None:
        with Session(self.HEAD, seconds=0.3) as session:
            session.process.send_signal(signal.SIGSTOP)
            with self.assertRaises(TimeoutError):
                session.submit(1, 2, 2)
            session.process.send_signal(signal.SIGCONT)
            self.hold_to_step(session, 0)

    def test_a_session_whose_program_is_stopped_ends(self) -> None:
        with self.assertRaises(TimeoutError), Session(self.HEAD, seconds=0.5) as session:
            session.process.send_signal(signal.SIGSTOP)
        self.assertEqual(session.process.returncode, -signal.SIGKILL)

    def test_a_batch_that_is_interrupted(self) -> None:
        with Session(self.HEAD) as session:
            session.process.send_signal(signal.SIGSTOP)
            with self.assertRaises(KeyboardInterrupt), session.batch() as batch:
                asked = [batch.add(count()) for _ in range(3)]
                threading.Timer(0.3, lambda: os.kill(os.getpid(), signal.SIGINT)).start()
            session.process.send_signal(signal.SIGCONT)
            self.hold_to_step(session, 0)
            with self.assertRaises(ValueError):
                _ = asked[0].value
            with self.assertRaises(ValueError), batch:
                pass

    def test_a_call_out_of_a_call(self) -> None:
        # The handler runs in the midst of an exchange. Both calls have their own answers.
        told: list[int] = []

        def handle(_signal: int, _frame: FrameType | None) -> None:
            session.process.send_signal(signal.SIGCONT)
            told.append(session.read(session.submit(1, 9, 9).element).words[0])

        before = signal.signal(signal.SIGALRM, handle)
        try:
            with Session(self.HEAD) as session:
                session.process.send_signal(signal.SIGSTOP)
                signal.setitimer(signal.ITIMER_REAL, 0.3)
                self.assertEqual(session.read(session.submit(1, 5, 5).element).words, (5, 5, 0, 0))
                self.assertEqual(told, [9])
                self.assertEqual(session.read(session.submit(1, 6, 6).element).words, (6, 6, 0, 0))
        finally:
            signal.signal(signal.SIGALRM, before)

    def test_a_program_that_speaks_other_lines(self) -> None:
        counted = "waiting 0 held 0 consumed 0 parked 0 killed 0"
        # (it gives back what it is sent, tells too much, or knows no tags)
        for program in (["cat"], *(["sed", "-u", it] for it in (f"s/.*/{counted}/;p", "s/.*/refused 1/"))):
            with self.subTest(program), self.assertRaises(ValueError), left_after(5), Session([], program):
                pass

    def test_an_answer_that_isnt_understood(self) -> None:
        with Session(self.HEAD) as session:
            with self.assertRaises(ValueError):
                session.do(Command("count", read=lambda it: it.numbers("submitted N")))
            self.hold_to_step(session, 0)


class Words(unittest.TestCase):
    def test_a_word_is_one_word(self) -> None:
        # Each would be another line than was meant, or one line more, or one that isn't answered.
        with Session(["worker clerk 1"]) as session:
            for wrong in ("clerk\ncount", "clerk 15:1:1", "", "clerk\r", "cl\0erk", "clérk", "clerk\tx"):
                with self.subTest(wrong), self.assertRaises(ValueError), left_after(5):
                    session.claim(wrong)
            for name in ("#", "# count", "count\n", "", "\ncount"):
                with self.subTest(name), self.assertRaises(ValueError), left_after(5):
                    session.do(Command(name, read=str))
            self.assertEqual(session.submit(1, 3, 3).element, 0)
            self.assertEqual(session.count(), Counts(1, 0, 0, 0, 0))

    def test_a_line_of_a_head_is_one_line(self) -> None:
        for head in (["limit 2\nsubmit 1 5 5"], ["limit 2", "# a\n\nworker clerk 1"], ["limit 2", "# é"]):
            with self.subTest(head), self.assertRaises(ValueError), left_after(5), Session(head):
                pass


class Closed(unittest.TestCase):
    def test_a_closed_session_writes_nowhere(self) -> None:
        with Session(["worker clerk 1"]) as session:
            session.submit(1, 5)
        with tempfile.TemporaryDirectory() as folder, contextlib.ExitStack() as stack:
            # These take the descriptors that the session had.
            files = [stack.enter_context(open(f"{folder}/{it}", "w+", encoding="ascii")) for it in range(8)]
            for call in (session.count, lambda: session.submit(1, 1), session.dump):
                with self.assertRaises(SessionClosed), left_after(5):
                    call()
            session.close()
            for it in files:
                it.flush()
                self.assertEqual(Path(it.name).read_bytes(), b"")

    def test_one_that_has_not_begun(self) -> None:
        session = Session([])
        with self.assertRaises(SessionClosed):
            session.count()

    def test_a_forked_process(self) -> None:
        with Session([]) as session:
            session.submit(1, 5)
            read, write = os.pipe()
            child = os.fork()
            if child == 0:
                try:
                    session.submit(1, 6)
                except SessionClosed:
                    os.write(write, b"closed")
                finally:
                    # It lives on, beyond the session's end in its parent.
                    time.sleep(1)
                    os._exit(0)
            self.assertEqual(os.read(read, 100), b"closed")
            self.assertEqual(session.count(), Counts(1, 0, 0, 0, 0))
            session.close()
            self.assertEqual(os.waitpid(child, os.WNOHANG), (0, 0))
            os.waitpid(child, 0)
            os.close(read)
            os.close(write)


class Told(unittest.TestCase):
    def test_a_refusal_names_its_command_and_worker(self) -> None:
        with Session(["worker clerk 1", "worker other 1"]) as session:
            session.submit(1, 5)
            session.claim("clerk")
            with self.assertRaises(refusals.Busy) as busy:
                session.claim("clerk")
            self.assertEqual((busy.exception.command, busy.exception.worker), ("claim clerk", "clerk"))
            self.assertIn("claim clerk", str(busy.exception))
            with self.assertRaises(refusals.Busy) as account:
                session.account()
            self.assertEqual((account.exception.command, account.exception.worker), ("account", None))
            with self.assertRaises(refusals.NoneOpen) as none:
                session.commit("other", Draft(2, 7, 8))
            self.assertEqual(none.exception.command, "commit other 2:7:8:0:0")
            self.assertEqual(none.exception.worker, "other")

    def test_an_end_tells_how(self) -> None:
        program = ["sh", "-c", "echo no memory >&2; exit 3"]
        with self.assertRaises(SessionEnded) as caught, Session([], program):
            pass
        self.assertEqual((caught.exception.status, caught.exception.said), (3, "no memory\n"))
        for word in ("3", "no memory"):
            self.assertIn(word, str(caught.exception))


if __name__ == "__main__":
    unittest.main()
