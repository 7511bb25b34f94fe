"""The C library's calls, its refusals, threads, and where the shared object is.

What needs the shared object is skipped where none is named and none was made. tools/library makes one.
"""
from __future__ import annotations

import ctypes.util
import gc
import os
import re
import subprocess
import sys
import tempfile
import textwrap
import threading
import time
import unittest
from dataclasses import replace
from pathlib import Path
from unittest import mock

from covetrivet import library, library_shapes, refusals
from covetrivet.library import (
    BadDraft, Caller, ClosedHandle, Counts, Draft, FullLost, Limits, Look, Manager, NoLibrary, NoPart,
    NotAll, OtherManager, Released, Reply, Room, TooMany, Work,
)  # fmt: skip


def wants() -> str:
    """What is wanted of the shared object: nothing where one is named or was made."""
    try:
        library_shapes.find()
    except NoLibrary as why:
        return str(why)
    return ""


def worked(work: Work | None) -> Work:
    assert work is not None
    return work


def run_all(threads: list[threading.Thread]) -> None:
    for it in threads:
        it.start()
    for it in threads:
        it.join()


class Loading(unittest.TestCase):
    def run_with(self, named: str, code: str) -> str:
        environment = {**os.environ, library_shapes.VARIABLE: named}
        command = [sys.executable, "-c", code]
        return subprocess.run(
            command, env=environment, stdout=subprocess.PIPE, stderr=subprocess.STDOUT, text=True, check=False
        ).stdout

    def test_nothing_is_loaded_before_the_first_manager(self) -> None:
        code = "from covetrivet import Draft, library; print(library.Draft is Draft); library.Manager()"
        said = self.run_with("/nowhere/lib.so", code)
        self.assertEqual(said.splitlines()[0], "True")
        for word in ("NoLibrary", "/nowhere/lib.so", "No such file", library_shapes.VARIABLE, "./library"):
            self.assertIn(word, said.splitlines()[-1])

    def test_none_is_named_or_made(self) -> None:
        with tempfile.TemporaryDirectory() as folder, mock.patch.dict(os.environ):
            os.environ.pop(library_shapes.VARIABLE, None)
            for top in (None, Path(folder)):
                with mock.patch("covetrivet.program.checkout", lambda top=top: top):
                    with self.assertRaises(NoLibrary) as caught:
                        library_shapes.find()
                    self.assertIn("./library makes out/library/lib/libcovetrivet.so", str(caught.exception))
            made = Path(folder) / "out/library/lib/libcovetrivet.so"
            made.parent.mkdir(parents=True)
            made.touch()
            with mock.patch("covetrivet.program.checkout", lambda: Path(folder)):
                self.assertEqual(library_shapes.find(), str(made))

    def test_another_shared_object(self) -> None:
        with self.assertRaises(NoLibrary) as caught:
            library_shapes.load(ctypes.util.find_library("c") or "libc.so.6")
        self.assertIn("covetrivet_size", str(caught.exception))

    def test_refusals_of_sessions_are_as_they_were(self) -> None:
        self.assertNotIn("NoPart", refusals.BY_NAME)
        self.assertNotIn(NoPart, refusals.BY_WORD.values())
        self.assertTrue(issubclass(NoPart, refusals.Refusal))

    @unittest.skipIf(wants(), wants())
    def test_a_library_of_another_version(self) -> None:
        shapes = [library_shapes.CWork, *library_shapes.SHAPES[1:]]
        with mock.patch("covetrivet.library_shapes.SHAPES", shapes), self.assertRaises(NoLibrary) as caught:
            library_shapes.load(library_shapes.find())
        self.assertIn("another version", str(caught.exception))


@unittest.skipIf(wants(), wants())
class Calls(unittest.TestCase):
    def test_what_the_page_shows(self) -> None:
        page = (Path(__file__).resolve().parents[3] / "docs" / "C.md").read_text(encoding="utf-8")
        (shown,) = re.findall(r"(?m)^    from covetrivet.library import .*\n(?:(?:    .*)?\n)+", page)
        self.assertIn(shown, library.__doc__ or "")
        found: dict[str, object] = {}
        exec(textwrap.dedent(shown), found)
        # (the server has ids from 256 on)
        self.assertEqual(found["reply"], Reply(256, (11, 0, 0, 0)))

    def test_one_element(self) -> None:
        with Manager(parts=2, rows=4, units=8, attempts=1, spare=1) as manager:
            self.assertEqual((manager.capacity(), manager.limits()), (16, Limits(2, 4, 8, 1, 1)))
            client, server = manager.open(), manager.open()
            self.assertRaises(NoPart, manager.open)
            self.assertEqual((client.number(), server.number()), (0, 1))
            root = client.submit(3, 1, 2, 3, 4)
            self.assertIsNone(server.claim(4))
            with worked(server.claim(3)) as work:
                told = work.element, work.stage, work.root, work.words, work.attempt
                self.assertEqual(told, (root, 3, root, (1, 2, 3, 4), 1))
                held = Look(root, 3, root, (1, 2, 3, 4), "client", f"held {work.unit} 1")
                self.assertEqual(client.read(root), held)
                self.assertTrue(server.has_open())
                self.assertRaises(refusals.Busy, server.kill, root)
                self.assertRaises(refusals.Busy, server.claim, 3)
                born = work.commit(Draft(15, 9), Draft(5, 8))
            self.assertEqual(len(born), 2)
            self.assertEqual(client.read(born[1]).by, str(work.unit))
            self.assertEqual(client.reply(root), born[0])
            self.assertEqual(client.collect_next(root), Reply(born[0], (9, 0, 0, 0)))
            self.assertIsNone(client.collect_next(root))
            self.assertRaises(refusals.AlreadyKilled, client.collect, born[0])
            family = [it.status for it in client.family(root)]
            self.assertEqual(family, [f"consumed {work.unit}", "killed", "waiting 0"])
            self.assertEqual(client.cancel(root), 1)
            self.assertRaises(refusals.Consumed, client.kill, root)
            client.meet(server)
            self.assertEqual(client.room(), Room(3, 8))
            self.assertRaises(NotAll, manager.account)
            manager.hand_back(server)
            manager.hand_back(client)
            self.assertRaises(ClosedHandle, client.number)
            manager.gather()
            account = manager.account()
            self.assertEqual(account.total, Counts(0, 0, 1, 0, 2))
            self.assertEqual(account.stages[3], Counts(0, 0, 1, 0, 0))
            self.assertEqual(account.stages[5], Counts(0, 0, 0, 0, 1))
            self.assertEqual(account.stages[15], Counts(0, 0, 0, 0, 1))

    def test_limits(self) -> None:
        wrong = [("parts", 0), ("parts", 33), ("rows", 257), ("units", 1025), ("spare", 257), ("attempts", 8)]
        # (ctypes would make these 1)
        wrong += [("parts", 65537), ("rows", -65535), ("units", 65537), ("spare", 65537), ("attempts", 257)]
        for name, value in wrong:
            with self.assertRaises(refusals.BadLimits, msg=name):
                Manager(**{name: value})

    def test_refusals(self) -> None:
        one, two = Manager(parts=1, rows=2, units=8, attempts=1), Manager(parts=1)
        me, other = one.open(), two.open()
        self.assertRaises(OtherManager, one.hand_back, other)
        self.assertRaises(OtherManager, me.meet, other)
        self.assertRaises(OtherManager, me.meet, me)
        self.assertRaises(refusals.BadStage, me.submit, 15)
        self.assertRaises(refusals.BadStage, me.claim, 0)
        self.assertRaises(refusals.NotThere, me.read, 5)
        self.assertRaises(refusals.NoneOpen, me.abort)
        self.assertRaises(refusals.NoneOpen, me.commit)
        root = me.submit(1)
        self.assertRaises(refusals.NotParked, me.requeue, root)
        self.assertRaises(refusals.NotHeld, me.release, root)
        self.assertRaises(refusals.BadStage, me.collect, root)
        with worked(me.claim(1)) as work:
            self.assertRaises(TooMany, work.commit, *[Draft(15)] * 5)
            self.assertRaises(BadDraft, work.commit, Draft(16))
            self.assertRaises(BadDraft, work.commit, Draft(0))
            self.assertTrue(work.is_open)
        self.assertEqual((me.read(root).status, me.next_error()), ("parked 1", root))
        self.assertEqual(me.requeue(root), 1)
        self.assertEqual(me.rounds(root), 1)
        with worked(me.claim_next(1)) as work, self.assertRaises(refusals.Full) as caught:
            work.commit(Draft(2), Draft(2))
        self.assertEqual(str(caught.exception).split(":")[0], "'commit'")
        one.close()
        self.assertRaises(ClosedHandle, one.open)
        self.assertEqual(me.requeue(root), 2)

    def test_full_or_lost(self) -> None:
        with Manager(parts=2, rows=1) as manager, manager.open() as me, manager.open() as server:
            element = me.submit(1)
            with worked(server.claim(1)) as work, self.assertRaises(refusals.Full) as caught:
                work.commit(Draft(2), Draft(2))
            self.assertNotIsInstance(caught.exception, FullLost)
            self.assertEqual(me.read(element).status, "waiting 1")
            with worked(server.claim(1)) as work:
                me.kill(element)
                self.assertRaises(FullLost, work.commit, Draft(2), Draft(2))
                self.assertFalse(work.is_open)
            self.assertEqual(me.read(element).status, "killed")

    def test_numbers_that_do_not_fit(self) -> None:
        """What ctypes would cut off: the stage 257 would be 1, and the id 2^32 would be 0."""
        with Manager(parts=1) as manager, manager.open() as me:
            root = me.submit(1)
            self.assertRaises(refusals.BadStage, me.submit, 257)
            self.assertRaises(refusals.BadStage, me.claim, -255)
            self.assertRaises(refusals.NotThere, me.claim_id, 1 << 32)
            self.assertRaises(refusals.NotThere, me.read, root - (1 << 32))
            self.assertRaises(refusals.NotThere, me.reply, root, 1 << 32)
            self.assertRaises(refusals.BadLimits, me.low, 1, 1 << 16)
            self.assertRaises(BadDraft, me.submit, 1, 1 << 64)
            self.assertRaises(BadDraft, me.submit, 1, -1)
            with me.claim_id(root) as work:
                self.assertRaises(BadDraft, work.commit, Draft(257))
                self.assertRaises(BadDraft, work.commit, Draft(2, 0, 0, 0, 1 << 64))
                most = (1 << 64) - 1
                (born,) = work.commit(Draft(2, most, 0, 0, most))
            self.assertEqual(me.read(born).words, (most, 0, 0, most))
            for wrong in ("1", 1.0, None):
                self.assertRaises(TypeError, me.claim, wrong)
                self.assertRaises(TypeError, me.submit, 1, wrong)

    def test_work_that_is_left(self) -> None:
        with Manager(parts=2) as manager, manager.open() as me, manager.open() as other:
            first = me.submit(1)
            with self.assertRaises(KeyError), me.claim_id(first):
                raise KeyError
            self.assertEqual(me.read(first).status, "waiting 1")
            with me.claim_id(first) as work:
                self.assertEqual(other.release(first), Released(first, work.unit, 2))
            self.assertEqual((work.is_open, me.has_open()), (False, False))
            with me.claim_id(first) as work:
                other.kill(first)
                self.assertRaises(refusals.Lost, work.commit)
            second = me.submit(1)
            # An earlier work doesn't end a later one.
            with me.claim_id(second) as work:
                me.abort()
                later = me.claim_id(second)
            self.assertEqual((work.is_open, later.is_open, me.has_open()), (False, True, True))
            self.assertEqual(later.commit(), range(0))

    def test_callers_that_are_closed(self) -> None:
        manager = Manager(parts=2)
        with manager.open() as me:
            root = me.submit(1)
            with me.claim_id(root):
                me.close()
            self.assertRaises(ClosedHandle, me.read, root)
            me.close()
        # it is at home, with what it had in hand
        self.assertEqual(manager.account().total, Counts(0, 1, 0, 0, 0))
        with manager.open(0) as me:
            self.assertEqual(worked(me.in_hand(root)).commit(), range(0))

    def test_callers_that_are_lost(self) -> None:
        manager = Manager(parts=2)
        caller = manager.open()
        root = caller.submit(1)
        work = caller.claim_id(root)
        self.assertRaises(NotAll, manager.account)
        del caller, work
        gc.collect()
        self.assertEqual(manager.account().total, Counts(0, 1, 0, 0, 0))

        def loses() -> None:
            lost = manager.open(1)
            lost.submit(1)

        run_all([threading.Thread(target=loses)])
        gc.collect()
        self.assertEqual(manager.account().total, Counts(1, 1, 0, 0, 0))
        self.assertEqual(len(manager.rollover().moved), 2)

    def test_work_that_is_over(self) -> None:
        """It ends no later unit, not even one of the same number."""
        with Manager(parts=1, units=8) as manager:
            with manager.open() as me:
                first, second = me.submit(1), me.submit(1)
                early = me.claim_id(first)
                early.commit()
                late = me.claim_id(second)
                self.assertRaises(refusals.NoneOpen, early.commit)
                self.assertRaises(refusals.NoneOpen, early.abort)
                self.assertTrue(late.is_open)
            moved = manager.rollover().moved
            with manager.open() as me:
                again = worked(me.in_hand(moved[second]))
                self.assertEqual((again.unit, late.unit), (0, 1))
                for old in early, late:
                    self.assertRaises(refusals.NoneOpen, old.abort)
                self.assertTrue(worked(me.in_hand(moved[second])).is_open and again.is_open)
                again.commit()
                self.assertEqual(me.read(moved[second]).status, "consumed 0")

    def test_managers_that_are_closed(self) -> None:
        with Manager(parts=2, units=8) as manager, manager.open() as me, manager.open() as other:
            manager.close()
            root = me.submit(1, 5)
            self.assertEqual(other.claim_id(root).words, (5, 0, 0, 0))
            self.assertRaises(ClosedHandle, manager.hand_back, me)
            self.assertRaises(ClosedHandle, manager.capacity)
            # (the first has units 0 to 7)
            self.assertEqual(me.read(root).status, "held 8 1")
        # nothing is there that it could come home to
        self.assertRaises(ClosedHandle, me.read, root)

    def test_rollover(self) -> None:
        with Manager(parts=2, rows=8, units=8, attempts=2) as manager:
            with manager.open() as me:
                consumed, left = me.submit(1, 1), me.submit(2, 2)
                me.claim_id(consumed).commit()
                self.assertRaises(NotAll, manager.rollover)
            moved = manager.rollover().moved
            self.assertEqual(list(moved), [left])
            self.assertRaises(refusals.BadLimits, manager.rollover, Limits(2, 8, 8, 3, 0))
            with manager.open() as me:
                wanted = Look(moved[left], 2, moved[left], (2, 0, 0, 0), "client", "waiting 0")
                self.assertEqual(me.read(moved[left]), wanted)
            self.assertEqual(manager.rollover(Limits(3, 16, 8, 2, 1)).holders, {})
            self.assertEqual(manager.limits(), Limits(3, 16, 8, 2, 1))

    def test_what_is_in_hand_goes_on(self) -> None:
        with Manager(parts=2, rows=8, units=8, attempts=1) as manager:
            first, second = manager.open(), manager.open()
            one, two = first.submit(1, 1), first.submit(2, 2)
            worked(second.claim(2))
            self.assertRaises(NoPart, manager.open, 1)
            worked(first.claim(1))
            manager.hand_back(second)
            manager.hand_back(first)
            self.assertRaises(refusals.BadLimits, manager.rollover, Limits(1, 8, 8, 1, 0))
            rolled = manager.rollover()
            self.assertEqual(rolled.holders, {0: rolled.moved[one], 1: rolled.moved[two]})
            with manager.open(1) as me:
                self.assertEqual(me.number(), 1)
                self.assertIsNone(me.in_hand(rolled.moved[one]))
                self.assertRaises(refusals.NotThere, me.in_hand, 77)
                with worked(me.in_hand(rolled.moved[two])) as work:
                    self.assertEqual((work.words[0], work.attempt), (2, 1))
                    self.assertEqual(len(work.commit(Draft(15, 3))), 1)
                # what another caller has aborted before a rollover isn't in hand behind it
                me.release(rolled.moved[one])
            self.assertEqual(manager.rollover().holders, {})
            with manager.open(0) as me:
                self.assertFalse(me.has_open())
                self.assertRaises(refusals.NoneOpen, me.commit)

    def test_a_request_goes_on(self) -> None:
        with Manager(parts=1, rows=4, units=4) as manager:
            with manager.open() as me:
                order = me.submit(1, 5)
                me.claim_id(order).commit(Draft(2, 6))
            roots = manager.rollover().roots
            self.assertEqual(list(roots), [order])
            # the root was consumed, and has another one in its place
            self.assertEqual(manager.account().total, Counts(1, 0, 1, 0, 0))
            with manager.open() as me:
                worked(me.claim(2)).commit(Draft(15, 7))
                reply = me.collect_next(roots[order])
            assert reply is not None
            self.assertEqual(reply.words[0], 7)

    def test_a_forked_process(self) -> None:
        with Manager(parts=1) as manager, manager.open() as me:
            root = me.submit(1)
            child = os.fork()
            if child == 0:
                killed = False
                try:
                    killed = me.kill(root) == 0 and me.read(root).status == "killed"
                finally:
                    os._exit(0 if killed else 1)
            self.assertEqual(os.waitpid(child, 0), (child, 0))
            self.assertEqual(me.read(root).status, "waiting 0")


@unittest.skipIf(wants(), wants())
class Threads(unittest.TestCase):
    def test_callers(self) -> None:
        """Four threads hand numbers on; every one comes out once."""
        wrong: list[BaseException] = []
        closing = threading.Event()

        def serve(manager: Manager, stage: int) -> None:
            try:
                with manager.open() as me:
                    while not closing.is_set():
                        work = me.claim_next(stage)
                        if work is None:
                            time.sleep(0)
                            continue
                        to = 15 if stage == 3 else stage + 1
                        work.commit(Draft(to, work.words[0], work.words[1] + stage))
            except BaseException as fault:
                wrong.append(fault)

        with Manager(parts=4, rows=256, units=1024) as manager:
            client = manager.open()
            threads = [threading.Thread(target=serve, args=(manager, it)) for it in (1, 2, 3)]
            for it in threads:
                it.start()
            roots = [client.submit(1, n) for n in range(100)]
            for n, root in enumerate(roots):
                while (reply := client.collect_next(root)) is None and not wrong:
                    time.sleep(0)
                self.assertFalse(wrong)
                self.assertEqual(reply and reply.words, (n, 6, 0, 0))
            closing.set()
            for it in threads:
                it.join()
            manager.hand_back(client)
            self.assertEqual((manager.account().total, wrong), (Counts(0, 0, 300, 0, 100), []))

    def test_one_caller_of_many_threads(self) -> None:
        """A handle leads to nothing during a call, so no other call may find it then."""
        inside: list[int] = []
        overlaps: list[int] = []

        def slow(*given: object) -> int:
            inside.append(1)
            time.sleep(0.001)
            overlaps.append(len(inside) - 1)
            inside.pop()
            return shared.calls["number"](*given)

        with Manager(parts=1) as manager, manager.open() as me:
            shared = me._library
            me._library = replace(shared, calls={**shared.calls, "number": slow})
            told: list[int] = []
            run_all([threading.Thread(target=lambda: told.append(me.number())) for _ in range(16)])
            self.assertEqual((told, overlaps), ([0] * 16, [0] * 16))

    def test_two_that_meet_each_other(self) -> None:
        """Neither has its own lock and waits for the other's."""
        met: list[bool] = []

        class Slow:
            """A lock behind which its thread is slow, so that the other comes to its own."""

            def __init__(self, caller: Caller) -> None:
                self.lock = caller._lock

            def __enter__(self) -> None:
                self.lock.acquire()
                time.sleep(0.02)

            def __exit__(self, *_given: object) -> None:
                self.lock.release()

        def meet(me: Caller, other: Caller) -> None:
            me.meet(other)
            met.append(True)

        with Manager(parts=2) as manager, manager.open() as one, manager.open() as two:
            with mock.patch.object(one, "_lock", Slow(one)), mock.patch.object(two, "_lock", Slow(two)):
                run_all([threading.Thread(target=meet, args=it) for it in [(one, two), (two, one)]])
            self.assertEqual(met, [True, True])


if __name__ == "__main__":
    unittest.main()
