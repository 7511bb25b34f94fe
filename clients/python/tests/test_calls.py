"""Each command and its answers, batches, heads and dumps."""
from __future__ import annotations

import contextlib
import unittest
from collections.abc import Callable

from covetrivet import (
    Account, Command, Counts, Depth, Done, Draft, Held, Look, Member, Released, Reply, Session, SessionClosed,
    SessionEnded, Work, claim, commit, count, depth, dump, kill, refusals, submit, waiting,
)  # fmt: skip

HEAD = ["limit 2", "server till eager 2 1 add", "start till 0 100", "worker packer 1"]


class Calls(unittest.TestCase):
    def setUp(self) -> None:
        stack = contextlib.ExitStack()
        self.addCleanup(stack.close)
        self.session = stack.enter_context(Session(HEAD))

    def test_a_commit(self) -> None:
        session = self.session
        self.assertEqual(session.submit(1, 5, 6, 7, 8).element, 0)
        self.assertEqual(session.claim("packer"), Work(0, 0, 1, 0, (5, 6, 7, 8)))
        drafts = Draft(2, 0, 10), Draft(15, 5, 6, 0, 9)
        self.assertEqual(session.commit("packer", *drafts), Done(0, 0, range(1, 3)))
        self.assertEqual(session.reply(0), (Reply(2, (5, 6, 0, 9)),))
        self.assertEqual(session.turn("till"), Done(1, 1, range(0)))
        self.assertIsNone(session.turn("till"))
        self.assertIsNone(session.claim("packer"))
        self.assertEqual((session.balance("till", 0), session.balance("till", 1)), (110, None))
        self.assertEqual(session.total(0), 110)
        members = (Member(0, 1, "consumed"), Member(1, 2, "consumed"), Member(2, 15, "waiting"))
        self.assertEqual(session.family(0), members)
        self.assertEqual(session.collect(0), (Reply(2, (5, 6, 0, 9)),))
        self.assertEqual(session.collect(0), ())
        self.assertEqual(session.account(), Account(3, 0, 0, 3, 0, 0))
        session.close()
        self.assertEqual(session.finals, {"till": (110,)})

    def test_attempts(self) -> None:
        session = self.session
        session.submit(1, 1)
        self.assertEqual(session.take("packer", 0), Work(0, 0, 1, 0, (1, 0, 0, 0)))
        self.assertEqual(session.read(0), Look(0, 1, 0, (1, 0, 0, 0), "client", "held 0 1"))
        self.assertEqual(session.abort("packer"), 0)
        session.claim("packer")
        self.assertEqual(session.release(0), Released(0, 1, 2))
        with self.assertRaises(refusals.Lost) as caught:
            session.commit("packer")
        self.assertEqual((caught.exception.worker, caught.exception.element), ("packer", 0))
        self.assertEqual(session.errors(), (0,))
        self.assertEqual(session.requeue(0).round, 1)
        self.assertEqual(session.count(), Counts(1, 0, 0, 0, 0))
        self.assertEqual(session.cancel(0).killed, 1)

    def test_a_desk(self) -> None:
        session = self.session
        session.submit(2, 0, 7)
        work = session.claim("till")
        assert work
        self.assertEqual(work, Work(0, 0, 1))
        with self.assertRaises(LookupError):
            _ = work.words
        session.prepare("till")
        self.assertEqual(session.balance("till", 0), 100)
        self.assertEqual(session.commit("till"), Done(0, 0, range(0)))
        session.submit(2, 3, 7)
        with self.assertRaises(refusals.Declined) as caught:
            session.turn("till")
        self.assertEqual((caught.exception.element, caught.exception.reason), (1, "NoRegister"))
        session.drop("till")
        with self.assertRaises(refusals.Ended):
            session.turn("till")
        self.assertEqual(session.balance("till", 0), 107)

    def test_claims_in_turn(self) -> None:
        session = self.session
        for amount in (1, 2):
            session.submit(2, 5, amount)
        self.assertEqual([session.claim_next("till"), session.abort("till")], [Work(0, 0, 1), 0])
        self.assertEqual(session.claim_next("till"), Work(1, 1, 1))

    def test_workers_claims_in_turn(self) -> None:
        session = self.session
        self.assertIsNone(session.claim_next("packer"))
        for amount in (1, 2):
            session.submit(1, 5, amount)
        self.assertEqual(session.claim_next("packer"), Work(0, 0, 1, 0, (5, 1, 0, 0)))
        with self.assertRaises(refusals.Busy):
            session.claim_next("packer")
        self.assertEqual(session.abort("packer"), 0)
        self.assertEqual(session.claim_next("packer"), Work(1, 1, 1, 1, (5, 2, 0, 0)))
        session.abort("packer")
        # Behind the last id comes the first.
        self.assertEqual(session.claim_next("packer"), Work(0, 2, 2, 0, (5, 1, 0, 0)))
        with self.assertRaises(refusals.BadName):
            session.claim_next("nobody")

    def test_workers_that_come_and_go(self) -> None:
        session = self.session
        with self.assertRaises(refusals.BadName):
            session.join("till", 1)
        session.join("left", 1)
        session.submit(1, 5, 6)
        self.assertEqual(session.claim("left"), Work(0, 0, 1, 0, (5, 6, 0, 0)))
        self.assertEqual(session.leave("left"), 0)
        session.join("left", 1)
        self.assertEqual(session.claim("left"), Work(0, 1, 2, 0, (5, 6, 0, 0)))
        session.kill(0)
        # (what it has lost is told too)
        self.assertEqual(session.leave("left"), 0)
        with self.assertRaises(refusals.BadName):
            session.leave("left")
        session.join("more", 2)
        self.assertIsNone(session.leave("more"))

    def test_stages(self) -> None:
        session = self.session
        self.assertEqual((session.depth(), session.waiting(1)), ((), ()))
        for stage in (1, 1, 2, 1):
            session.submit(stage, 0, 7)
        session.claim("packer")
        self.assertEqual(session.depth(), (Depth(1, 2, 1, 0), Depth(2, 1, 0, 0)))
        session.abort("packer")
        self.assertEqual([session.waiting(1, it) for it in (0, 1, 4)], [(0, 1, 3), (1, 3), ()])
        session.claim("packer")
        session.abort("packer")
        session.turn("till")
        self.assertEqual(session.depth(), (Depth(1, 2, 0, 1),))
        self.assertEqual([session.waiting(it) for it in (1, 2, 15)], [(1, 3), (), ()])
        for stage, start in ((0, 0), (1000, 0), (1, -1), (1, 1 << 64)):
            with self.subTest(stage=stage, start=start), self.assertRaises(refusals.BadNumber):
                session.waiting(stage, start)

    def test_pages_of_a_stage(self) -> None:
        with Session([]) as session:
            with session.batch() as batch:
                asked = [batch.add(submit(1, it)) for it in range(450)]
                deep, listed = batch.add(depth()), batch.add(waiting(1, 100))
            ids = [it.value.element for it in asked]
            self.assertEqual(deep.value, (Depth(1, 450, 0, 0),))
            self.assertEqual(listed.value, tuple(ids[100:300]))
            self.assertEqual(session.waiting(1, ids[299] + 1), tuple(ids[300:]))
            self.assertEqual([*session.all_waiting(1)], ids)
            self.assertEqual([*session.all_waiting(2)], [])

    def test_who_holds_what(self) -> None:
        session = self.session
        self.assertEqual(session.holds(), ())
        for stage in (1, 2):
            session.submit(stage, 0, 7)
        session.claim("packer")
        session.abort("packer")
        session.claim("packer")
        session.claim("till")
        self.assertEqual(session.holds(), (Held("till", 1, 2, 1), Held("packer", 0, 1, 2)))
        session.kill(0)
        self.assertEqual(session.holds(), (Held("till", 1, 2, 1), Held("packer", 0, 1, None)))

    def test_drains(self) -> None:
        session = self.session
        for amount in (1, 2, 3, 4):
            session.submit(2, 0, amount)
        self.assertTrue(session.drain())
        self.assertEqual(session.total(0), 110)
        session.submit(2, 0, 5)
        self.assertTrue(session.drain_next())
        self.assertEqual(session.total(0), 115)
        with Session(["server loop eager 1 1 pass 1:same:same"]) as endless:
            endless.submit(1, 0, 7)
            self.assertFalse(endless.drain())

    def test_refusals(self) -> None:
        session = self.session
        session.submit(1, 0, 1)
        refused: dict[type[refusals.Refusal], Callable[[], object]] = {
            refusals.BadStage: lambda: session.submit(0, 0, 0),
            refusals.BadNumber: lambda: session.submit(1, -1, 0),
            refusals.BadName: lambda: session.claim("nobody"),
            refusals.Syntax: lambda: session.submit(1, 1, 2, 3, 4, 5),
            refusals.NotThere: lambda: session.kill(5),
            refusals.NotParked: lambda: session.requeue(0),
            refusals.NotHeld: lambda: session.release(0),
            refusals.NoneOpen: lambda: session.abort("packer"),
            refusals.TooLong: lambda: session.do(Command("count", "x" * 1023, read=str)),
            refusals.Order: lambda: session.do(Command("over", 2, read=str)),
        }
        for kind, call in refused.items():
            with self.subTest(kind.__name__), self.assertRaises(kind):
                call()
        session.claim("packer")
        with self.assertRaises(refusals.Busy):
            session.account()
        with self.assertRaises(refusals.Busy):
            session.claim("packer")
        session.commit("packer")
        with self.assertRaises(refusals.Consumed) as caught:
            session.kill(0)
        self.assertEqual((caught.exception.command, caught.exception.unit), ("kill 0", 0))

    def test_a_session_that_is_full(self) -> None:
        with Session(["max 2", "worker packer 1"]) as session:
            for _ in range(2):
                session.submit(1, 0)
            with self.assertRaises(refusals.Full):
                session.submit(1, 0)
            # A commit isn't refused.
            session.claim("packer")
            self.assertEqual(session.commit("packer", *[Draft(2)] * 4), Done(0, 0, range(2, 6)))

    def test_what_is_forgotten(self) -> None:
        with Session(["keep 1"]) as session:
            for it in range(2):
                session.kill(session.submit(1, 0).element)
            with self.assertRaises(refusals.NotThere):
                session.read(0)
            self.assertEqual((session.read(1).status, session.count().killed), ("killed", 2))

    def test_a_batch(self) -> None:
        with Session([*HEAD, "max 8"]) as session, session.batch() as batch:
            asked = [batch.add(submit(1, i, 2 * i)) for i in range(9)]
            work = batch.add(claim("packer"))
            with self.assertRaises(ValueError):
                _ = work.value
        self.assertEqual([it.value.element for it in asked[:8]], list(range(8)))
        with self.assertRaises(refusals.Full):
            _ = asked[8].value
        self.assertEqual(work.value, Work(0, 0, 1, 0, (0, 0, 0, 0)))
        with self.assertRaises(ValueError):
            batch.add(count())

    def test_a_batch_past_any_pipe(self) -> None:
        with self.session.batch() as batch:
            asked = [batch.add(count()) for _ in range(20_000)]
        self.assertEqual({it.value for it in asked}, {Counts(0, 0, 0, 0, 0)})

    def test_a_batch_that_is_left(self) -> None:
        with self.assertRaises(KeyError), self.session.batch() as batch:
            asked = batch.add(submit(1, 0, 0))
            raise KeyError
        self.assertEqual(self.session.count(), Counts(0, 0, 0, 0, 0))
        with self.assertRaises(ValueError):
            _ = asked.value

    def test_numbers(self) -> None:
        with self.assertRaises(TypeError):
            submit(1, 5.0)  # type: ignore[arg-type]
        with self.assertRaises(TypeError):
            kill("0")  # type: ignore[arg-type]
        with self.assertRaises(TypeError):
            Draft(15, None)  # type: ignore[arg-type]
        with self.assertRaises(TypeError):
            commit("packer", "15:1:2")  # type: ignore[arg-type]


class Names(unittest.TestCase):
    def test_names_that_are_words_of_answers(self) -> None:
        # (any letters are a name, also those with which answers begin)
        head = ["server balance eager 2 1 add", "worker refused 1", "worker dumped 1", "worker final 3"]
        with Session(head) as session:
            session.submit(1, 5)
            session.submit(2, 0, 7)
            self.assertEqual(session.turn("balance"), Done(1, 0, range(0)))
            self.assertEqual(session.balance("balance", 0), 7)
            self.assertEqual(session.claim("refused"), Work(0, 1, 1, 0, (5, 0, 0, 0)))
            with self.assertRaises(refusals.NotWaiting) as caught:
                session.take("dumped", 0)
            self.assertEqual((caught.exception.worker, caught.exception.element), ("dumped", 0))
            self.assertEqual(session.commit("refused"), Done(0, 1, range(0)))
            self.assertIsNone(session.claim("final"))
            session.drop("balance")
            with self.assertRaises(refusals.Ended):
                session.turn("balance")
        self.assertEqual(session.finals, {"balance": (7,)})

    def test_longest_names(self) -> None:
        name, client = "Packer.of_hall-2".ljust(32, "x"), "c" * 32
        with Session([f"worker {name} 998", f"register {client}"]) as session:
            self.assertEqual(session.send(client, 1, 998, 7).element, 0)
            self.assertEqual(session.claim(name), Work(0, 0, 1, 0, (7, 0, 0, 0)))
            self.assertEqual(session.holds(), (Held(name, 0, 0, 1),))
            self.assertEqual((session.leave(name), session.last(client).sent), (0, 1))
            with self.assertRaises(refusals.BadName):
                session.join("x" * 33, 1)


class Heads(unittest.TestCase):
    def test_a_refused_line(self) -> None:
        with self.assertRaises(refusals.BadLimits) as caught, Session(["limit 2", "keep 0", "limit 9"]):
            pass
        self.assertEqual(caught.exception.command, "keep 0")

    def test_what_is_refused(self) -> None:
        element = "element 1 1:5:6:0:0 1 client nobody 0 waiting 0"
        refused = {
            refusals.BadNumber: ["numbers 1 0 0", element],
            refusals.BadName: ["numbers 1 1 0", "hand nobody 0 0"],
            refusals.Syntax: ["numbers 2 0 0", element, "restore now"],
            refusals.Order: ["numbers 2 0 0", element, "count", "restore"],
            refusals.TooLong: ["limit 2", "#" * 1024],
            refusals.BadLimits: ["limit 8"],
            refusals.BadRecipe: ["server till eager 2 1 add", "start till 1 5"],
        }
        for kind, head in refused.items():
            with self.subTest(kind.__name__), self.assertRaises(kind), Session(head):
                pass

    def test_heads_with_a_typo(self) -> None:
        element, hand = "element 0 1:5:6:0:0 0 client nobody 0 held 0 1", "hand packer 0 0"
        head = [*HEAD, "register shop", "keep 8", "max 100", "numbers 1 1 1", hand, element, "restore"]
        with Session(head) as session:
            self.assertEqual(session.read(0).status, "held 0 1")
        for at, line in enumerate(head):
            first, *words = line.split()
            wrong = " ".join([first[:-2] + first[-1] + first[-2], *words])
            with self.subTest(wrong), self.assertRaises(refusals.Syntax) as caught:
                with Session([*head[:at], wrong, *head[at + 1 :]]):
                    pass
            self.assertEqual(caught.exception.command, wrong)

    def test_heads_of_before(self) -> None:
        for line in "rows 8", "units 8", "spare 1", "workers 2", "alive 0 0 0 1:5:6":
            with self.subTest(line), self.assertRaises(refusals.Syntax) as caught:
                with Session([line, "limit 2", "worker packer 1"]):
                    pass
            self.assertEqual(caught.exception.command, line)

    def test_lines_that_go_on(self) -> None:
        long_comment = "#".ljust(1024)
        lines = [*HEAD, "", "# a shop", "submit 1 5 6", "", long_comment, "claim packer", "nonsense"]
        with Session(lines) as session:
            self.assertEqual(session.commit("packer"), Done(0, 0, range(0)))

    def test_a_session_is_used_once(self) -> None:
        session = Session(HEAD)
        with session:
            self.assertEqual(session.submit(1, 5).element, 0)
        with self.assertRaises(SessionClosed), session:
            pass

    def test_a_program_that_ends(self) -> None:
        program = ["sh", "-c", "echo 'fault 1 NoMemory' >&2; exit 1"]
        with self.assertRaises(SessionEnded) as caught, Session(HEAD, program):
            pass
        self.assertEqual((caught.exception.status, caught.exception.said), (1, "fault 1 NoMemory\n"))


class Dumps(unittest.TestCase):
    LINES = (
        "limit 2", "max 18446744073709551615", "keep 1000", "numbers 4 1 0", "server till eager 2 1 add",
        "start till 0 100", "worker packer 1", "ended packer done 0 0 2 2",
        "element 0 1:5:0:0:0 0 client nobody 0 consumed 0", "element 1 1:6:0:0:0 1 client nobody 0 waiting 0",
        "element 2 2:0:10:0:0 0 0 nobody 0 waiting 0", "element 3 15:5:6:0:0 0 0 nobody 0 waiting 0",
        "settled 1 1 0", "restore",
    )  # fmt: skip

    def test_a_dump(self) -> None:
        with Session(HEAD) as session:
            session.submit(1, 5)
            session.submit(1, 6)
            session.claim("packer")
            held = session.dump().lines
            session.commit("packer", Draft(2, 0, 10), Draft(15, 5, 6))
            self.assertEqual(session.dump().lines, self.LINES)
        self.assertIn("hand packer 0 0 1", held)
        with Session(held) as session:
            self.assertEqual(session.abort("packer"), 0)
        # The command `restore` is sent where it lacks.
        for lines in (self.LINES, self.LINES[:-1]):
            with Session(lines) as session:
                self.assertEqual(session.reply(0), (Reply(3, (5, 6, 0, 0)),))
                self.assertEqual(session.turn("till"), Done(2, 1, range(0)))
                self.assertEqual(session.submit(1, 7).element, 4)
                self.assertEqual(session.account(), Account(5, 3, 0, 2, 0, 0))
            self.assertEqual(session.finals, {"till": (110,)})

    def test_a_dropped_desk(self) -> None:
        with Session(HEAD) as session:
            session.drop("till")
            dumped = session.dump()
        self.assertIn("dropped till", dumped.lines)
        with Session(dumped.lines) as session, self.assertRaises(refusals.Ended):
            session.turn("till")
        self.assertEqual(session.finals, {"till": (100,)})

    def test_dumps_in_a_batch(self) -> None:
        with Session(["worker packer 1"]) as session:
            with session.batch() as batch:
                batch.add(submit(1, 6))
                one = batch.add(dump())
                batch.add(claim("packer"))
                another = batch.add(dump())
                counted = batch.add(count())
            element = "element 0 1:6:0:0:0 0 client nobody 0"
            self.assertEqual(one.value.lines[-2:], (f"{element} waiting 0", "restore"))
            self.assertEqual(another.value.lines[-2:], (f"{element} held 0 1", "restore"))
            self.assertEqual(counted.value, Counts(0, 1, 0, 0, 0))
            with session.batch() as batch:
                asked = [batch.add(dump()) for _ in range(2000)]
            self.assertEqual({it.value.lines for it in asked}, {another.value.lines})


if __name__ == "__main__":
    unittest.main()
