"""Work in a `with` block, and workers' loops."""
from __future__ import annotations

import contextlib
import os
import signal
import subprocess
import sys
import tempfile
import textwrap
import threading
import unittest
from collections import Counter
from collections.abc import Iterator
from types import TracebackType

from covetrivet import Client, Counts, Draft, Session, Work, Worker, claim, connect, refusals
from serving import SECONDS, Serving, comes

HEAD = ["limit 7", "worker w 1", "worker other 1", "server till eager 2 1 add", "register shop"]
# over a server, once its path is `sys.argv[1]`
PROCESS = textwrap.dedent(
    """
    import sys
    from covetrivet import Draft, Worker, connect, refusals

    def act(work):
        print(work.words[0], flush=True)
        sys.stdin.readline()
        return [Draft(15, work.words[0])]

    try:
        Worker(lambda: connect(sys.argv[1]), "w", act).run()
    except refusals.Other:
        print("other", flush=True)
    """
)


class Late(Exception):
    """What an act raises."""


class Works(unittest.TestCase):
    def setUp(self) -> None:
        stack = contextlib.ExitStack()
        self.addCleanup(stack.close)
        self.session = stack.enter_context(Session(HEAD))
        self.session.submit(1, 5)

    def claimed(self) -> Work:
        work = self.session.claim("w")
        assert work
        return work

    def test_a_block_that_commits(self) -> None:
        done = 0
        self.session.submit(1, 6)
        while work := self.session.claim("w"):
            with work:
                done += work.commit(Draft(15, work.words[0])).element
        self.assertEqual((done, self.session.count()), (1, Counts(2, 0, 2, 0, 0)))

    def test_a_block_that_is_left(self) -> None:
        with self.assertRaises(Late), self.claimed():
            raise Late
        self.assertEqual(self.session.read(0).status, "waiting 1")
        with self.claimed():
            pass
        self.assertEqual(self.session.read(0).status, "waiting 2")
        # (a commit that is refused leaves the work in hand, and the block gives it up)
        with self.assertRaises(refusals.BadNumber), self.claimed() as work:
            work.commit(Draft(1000))
        self.assertEqual(self.session.read(0).status, "waiting 3")
        with self.claimed() as work:
            self.assertEqual(work.abort(), 0)
        self.assertEqual(self.session.read(0).status, "waiting 4")

    def test_only_this_try_is_ended(self) -> None:
        first = self.claimed()
        self.session.abort("w")
        second = self.claimed()
        self.assertEqual((first.element, second.element), (0, 0))
        with self.assertRaises(refusals.Other):
            first.commit()
        with self.assertRaises(refusals.Other):
            first.abort()
        with first:
            pass
        self.assertEqual(self.session.read(0).status, "held 1 2")
        second.commit()
        # (neither of what was killed meanwhile, and the block says nothing of it)
        self.session.submit(1, 7)
        with self.claimed() as work:
            self.session.kill(work.element)
            with self.assertRaises(refusals.Lost):
                work.commit()
        self.assertIsNone(self.session.claim("w"))

    def test_works_of_other_calls(self) -> None:
        self.session.submit(1, 6)
        with self.session.batch() as batch:
            taken = [batch.add(claim(it)) for it in ("w", "other")]
        for it, word in zip(taken, (5, 6)):
            assert it.value
            with it.value as work:
                self.assertEqual(work.words[0], word)
                work.commit(Draft(2, 0, word))
        work_again = self.session.claim("till")
        assert work_again
        with work_again:
            self.assertEqual(work_again.commit().outputs, range(4, 4))
        with self.assertRaises(ValueError):
            Work(0, 0, 1, 0, (0, 0, 0, 0), 1).commit()


class Workers(unittest.TestCase):
    def test_all_that_waits(self) -> None:
        done: list[int] = []

        def act(work: Work) -> Iterator[Draft]:
            done.append(work.words[0])
            if len(done) == 3:
                worker.stop()
            yield Draft(15, work.words[0])

        with Session(HEAD) as session:
            for it in range(5):
                session.submit(1, it)
            worker = Worker(session, "w", act)
            worker.run()
            self.assertEqual((done, session.count()), ([0, 1, 2], Counts(5, 0, 3, 0, 0)))

    def test_an_act_that_fails(self) -> None:
        failed: list[tuple[int, str]] = []

        def act(work: Work) -> list[Draft]:
            if work.words[0] == 1:
                raise Late("once more")
            if work.words[0] == 2:
                worker.stop()
            # (the first one's output is of no stage)
            return [Draft(15 if work.words[0] else 1000)]

        def note(work: Work, fault: Exception) -> None:
            failed.append((work.words[0], type(fault).__name__))
            if len(failed) == 3:
                raise fault

        with Session(["limit 1", *HEAD[1:]]) as session:
            for it in (0, 1, 2, 1, 1):
                session.submit(1, it)
            worker = Worker(session, "w", act, failed=note)
            worker.run()
            self.assertEqual(failed, [(0, "BadNumber"), (1, "Late")])
            self.assertEqual(session.count(), Counts(3, 0, 1, 2, 0))
            again = Worker(session, "w", act, failed=note)
            with self.assertRaises(Late):
                again.run()
            with self.assertRaises(Late):
                Worker(session, "w", act).run()
            self.assertEqual(session.count(), Counts(1, 0, 1, 4, 0))
            with self.assertRaises(refusals.BadName):
                Worker(session, "shop", act).run()

    def test_what_an_earlier_life_has_left(self) -> None:
        for again, left in ((True, [5, 6]), (False, [5, 6])):
            done: list[int] = []

            def act(work: Work) -> list[Draft]:
                done.append(work.words[0])
                attempts.append(work.attempt)
                if work.words[0] == 6:
                    worker.stop()
                return []

            attempts: list[int] = []
            with Session(HEAD) as session:
                session.submit(1, 5)
                session.submit(1, 6)
                session.claim("w")
                worker = Worker(session, "w", act, again=again)
                worker.run()
                self.assertEqual((done, attempts), (left, [1 if again else 2, 1]))
        with Session(HEAD) as session:
            session.submit(1, 5)
            session.submit(1, 6)
            session.claim("w")
            session.kill(0)
            # (what was taken away is told first)
            worker = Worker(session, "w", act)
            worker.run()
            self.assertEqual(session.count(), Counts(0, 0, 1, 0, 1))

    def test_a_server_that_comes_again(self) -> None:
        done: Counter[int] = Counter()

        def act(work: Work) -> list[Draft]:
            done[work.words[0]] += 1
            return [Draft(15, work.words[0])]

        with tempfile.TemporaryDirectory() as folder:
            path = f"{folder}/socket"
            worker = Worker(lambda: connect(path), "w", act)
            thread = threading.Thread(target=worker.run)
            thread.start()
            try:
                for life in range(2):
                    with Serving(HEAD, folder=folder), connect(path) as session:
                        session.submit(1, life)
                        self.assertTrue(comes(lambda: session.count() == Counts(1, 0, 1, 0, 0)))
            finally:
                worker.stop()
                thread.join(SECONDS)
            self.assertEqual((done, thread.is_alive()), (Counter({0: 1, 1: 1}), False))


ROUNDS = int(os.environ.get("COVETRIVET_PAUSES", "20"))


class Pauses(unittest.TestCase):
    """A worker that is only paused, and another process that has its name meanwhile."""

    def test_each_order_is_replied_to_once(self) -> None:
        with Serving(HEAD) as server, connect(server.path, seconds=SECONDS) as session:
            client = Client(session, "shop")
            orders = range(2 * ROUNDS)
            for nth in orders[::2]:
                client.send((nth,))
                client.send((nth + 1,))
                self.pause(session, server.path, nth)
            replies = [client.receive() for _ in orders]
            self.assertEqual(sorted(it.words[0] for it in replies if it), [*orders])
            self.assertIsNone(client.receive())

    def pause(self, session: Session, path: str, nth: int) -> None:
        """Has two orders done, while a worker stands still with the first one in hand: it is told so."""
        with Process(path) as paused, Process(path) as other:
            self.assertEqual(paused.begins(), f"{nth}\n")
            paused.run.send_signal(signal.SIGSTOP)
            # (what an earlier life seems to have left is done again)
            self.assertEqual(other.begins(), f"{nth}\n")
            other.goes_on()
            self.assertEqual(other.told(), f"{nth + 1}\n")
            paused.run.send_signal(signal.SIGCONT)
            paused.goes_on()
            self.assertEqual(paused.told(), "other\n")
            other.goes_on()
            self.assertTrue(comes(lambda: session.count().consumed == nth + 2))


class Process:
    """A process that is the worker, in a `with` block: it tells each work before it does it."""

    def __init__(self, path: str) -> None:
        self.path = path

    def __enter__(self) -> Process:
        return self

    def begins(self) -> str:
        command = [sys.executable, "-c", PROCESS, self.path]
        pipe = subprocess.PIPE
        self.run = subprocess.Popen(command, stdin=pipe, stdout=pipe, text=True, bufsize=1)
        return self.told()

    def told(self) -> str:
        return self.run.stdout.readline() if self.run.stdout else ""

    def goes_on(self) -> None:
        if self.run.stdin:
            self.run.stdin.write("\n")

    def __exit__(
        self, kind: type[BaseException] | None, fault: BaseException | None, trace: TracebackType | None
    ) -> None:
        self.run.kill()
        self.run.communicate()


if __name__ == "__main__":
    unittest.main()
