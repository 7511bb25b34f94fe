"""Dumps of the sessions up to 0.22.1, as heads of sessions."""
from __future__ import annotations

import subprocess
import sys
import tempfile
import unittest
from collections.abc import Iterator
from pathlib import Path

from covetrivet import Client, Counts, Last, LastWork, Received, Session, UnitEnd, refusals
from covetrivet.convert import BadDump, converted

OLD = Path(__file__).parent / "old_dumps.txt"
# (as docs/LIVE.md of 0.22.1 shows it)
SHOP = """
rows 8
units 8
limit 3
spare 0
server till eager 2 1 add
start till 0 70
worker packer 1
held packer 1 1 0 1:7:8:0:0
alive 16 0 0 2:0:10:0:0 0 1:5:6:0:0
alive 17 0 0 15:5:6:0:0 0 1:5:6:0:0
client shop 1 0 0 gone gone 0:0:0:0
client idle 0 gone 0 gone gone 0:0:0:0
request shop 0
ended packer done 0 16 16 2
restore
"""
HEAD = """
limit 3
max 18446744073709551615
keep 1000
numbers 18 19 2
server till eager 2 1 add
start till 0 70
worker packer 1
hand packer 1 18 0
ended packer done 0 16 16 2
client idle 1 0 0 0 0 0 0:0:0:0 1 0:0:0:0:0 -
client shop 0 1 0 0 0 0 0:0:0:0 1 0:0:0:0:0 -
element 0 1:5:6:0:0 0 client 0 0 consumed 17
element 1 1:7:8:0:0 1 client nobody 0 held 18 1
element 16 2:0:10:0:0 0 17 0 0 waiting 0
element 17 15:5:6:0:0 0 17 0 0 waiting 0
settled 1 1 0
restore
"""


def head_of(*lines: str) -> list[str]:
    return converted(["rows 8", "units 8", "limit 3", "spare 0", *lines, "restore"])


def old_dumps() -> Iterator[tuple[str, list[str], list[list[str]]]]:
    """Yields each dump's name, its lines, and the words of what was told beside."""
    for block in OLD.read_text(encoding="ascii").split("\n\n")[1:]:
        name, *lines = block.strip("\n").split("\n")
        told = [it.removeprefix("= ").split() for it in lines if it.startswith("= ")]
        yield name, [it for it in lines if not it.startswith("= ")], told


class Converted(unittest.TestCase):
    def test_a_shop(self) -> None:
        self.assertEqual(converted(SHOP.strip().split("\n")), HEAD.strip().split("\n"))
        # (also as the answer that it is told in)
        quoted = ["recovered 9", "dumped 15", *(f"> {it}" for it in SHOP.strip().split("\n")), "final x 70"]
        self.assertEqual(converted(quoted), HEAD.strip().split("\n"))
        with Session(HEAD.strip().split("\n")) as session:
            self.assertEqual([it.words[0] for it in session.reply(0)], [5])
            self.assertEqual(session.commit("packer").outputs, range(18, 18))
            shop = Client(session, "shop")
            self.assertEqual((shop.sent, shop.receive()), (1, Received(1, 17, 0, (5, 6, 0, 0))))
            self.assertEqual(session.send("shop", 2, 1, 9).element, 18)

    def test_dumps_as_they_were_told(self) -> None:
        seen = 0
        for name, lines, told in old_dumps():
            with self.subTest(name):
                head = converted(lines)
                with Session(head) as session:
                    # Nothing is refused, left out or added.
                    self.assertEqual([*session.dump().lines], [it for it in head if not it.startswith("#")])
                    counts = session.count()
                    alive = sum(it.split()[0] in ("alive", "held") for it in lines)
                    self.assertEqual(counts.waiting + counts.held + counts.parked, alive)
                    self.assertEqual(counts.held, sum(it.startswith("held ") for it in lines))
                    for words in told:
                        seen += 1
                        self.hold(session, *words)
        self.assertGreater(seen, 50)

    def hold(self, session: Session, of: str, *told: str) -> None:
        """Holds what was told of an element or a worker against what is told of it."""
        if of.isdigit():
            stage, root, body, state, attempts = told
            look = session.read(int(of))
            self.assertEqual((look.stage, look.root), (int(stage), int(root)))
            self.assertEqual(":".join(map(str, look.words)), body)
            self.assertEqual(look.status.split()[0::len(look.status.split()) - 1], [state, attempts])
            return
        last = session.last_work(of)
        hand, lost = last.work, last.lost
        found = ["lost", str(lost)] if lost is not None else ["none"]
        found = ["hand", str(hand.element), str(hand.attempt)] if hand else found
        self.assertEqual(found, [*told])

    def test_what_was_lost_and_parked(self) -> None:
        head = head_of("worker ann 1", "worker ben 2", "alive 0 3 2 1:5:6", "lost ann 7", "ended ben full 4")
        with Session(head) as session:
            self.assertEqual((session.errors(), session.requeue(0).round), ((0,), 3))
            with self.assertRaises(refusals.Busy):
                session.claim("ann")
            with self.assertRaises(refusals.Lost) as lost:
                session.commit("ann")
            self.assertEqual(lost.exception.element, 7)
            ended = UnitEnd("aborted", 4)
            self.assertEqual(session.last_work("ben"), LastWork(None, None, ended))
            self.assertEqual(session.submit(1, 9).element, 8)

    def test_ids_that_last(self) -> None:
        # Two rollovers have been. Element 3 was born behind the first one as 7, and 4 before it as 9.
        comments = "rollovers 2", "3 lasts as 4294967303", "4 lasts as 9", "ben lost 5"
        lines = "held ann 4 2 0 1:5:6", "alive 6 0 0 2:7:8 3 1:7:7", "lost ben 4"
        told = (f"# covetrivet: {it}" for it in comments)
        with Session(head_of(*told, "worker ann 1", "worker ben 1", *lines)) as session:
            born = 2 << 32 | 6
            self.assertEqual([it.element for it in session.family(4294967303)], [4294967303, born])
            self.assertEqual((session.abort("ann"), session.waiting(1)), (9, (9,)))
            with self.assertRaises(refusals.AlreadyAborted) as already:
                session.abort("ben")
            self.assertEqual(already.exception.element, 5)
            self.assertEqual(session.submit(1, 9).element, born + 1)

    def test_what_is_gone(self) -> None:
        # It has an id that no element has, behind all others.
        lines = "worker ann 1", "alive 3 0 0 1:5:6", "client web 2 gone 1 gone 3 1:2:3:4"
        head = head_of(*lines, "ended ann done gone 9 gone 2")
        with Session(head) as session:
            self.assertEqual(session.last("web"), Last(2, 4, 1, Received(1, 4, 3, (1, 2, 3, 4))))
            self.assertEqual(session.last_work("ann").ended, UnitEnd("done", 4, 9, range(4, 6)))
            with self.assertRaises(refusals.NotThere):
                session.read(4)
            self.assertEqual(session.submit(1, 9).element, 5)

    def test_the_largest(self) -> None:
        # (as many as there were at most; the second half goes back to what isn't alive any more)
        lines = [f"alive {it} 0 0 1:{it}:6" for it in range(5120)]
        lines += [f"alive {it + 5120} 0 0 2:{it}:6 {it} 1:5:6" for it in range(5120, 10240)]
        with Session(head_of(*lines)) as session:
            self.assertEqual(session.count(), Counts(10240, 0, 5120, 0, 0))
            self.assertEqual([it.element for it in session.family(10239)], [10239, 15359])

    def test_a_dropped_desk_and_places(self) -> None:
        lines = "server till eager 2 2 take:2 3:same:after", "start till 1 9", "worker -1 3", "workers 4"
        with Session([*converted([*lines, "restore", "drop till"])]) as session:
            self.assertEqual((session.balance("till", 1), session.count()), (9, Counts(0, 0, 0, 0, 0)))
            with self.assertRaises(refusals.Ended):
                session.turn("till")
            session.join("late", 3)

    def test_a_root_behind_what_was_made_of_it(self) -> None:
        # (a client's element in a spare block, and an output in a worker's own rows)
        head = head_of("worker ann 1", "alive 2 0 0 2:5:6 6 1:7:8", "ended ann done 6 0 2 1")
        self.assertEqual(head[0], "# 2 is 7")
        with Session(head) as session:
            self.assertEqual([it.element for it in session.family(6)], [6, 7])
            self.assertEqual(session.last_work("ann").ended, UnitEnd("done", 6, 0, range(7, 8)))

    def test_lines_that_contradict_each_other(self) -> None:
        ann, alive = "worker ann 1", "alive 1 0 0 1:5:6"
        for lines in (
            ["submit 1 5 6"], ["alive 0 4 0 1:5:6"], ["alive 0 0 4 1:5:6"], ["alive 0 0 0 1:5"],
            [alive, alive], ["alive 0 0 0 15:5:6"], ["held ann 0 1 0 1:5:6"], [ann, "held ann 0 0 0 1:5:6"],
            [ann, "held ann 0 1 0 1:5:6", "lost ann 7"], ["lost ann 7"], ["request shop 0"],
            [ann, "ended ann 7"],
            [alive, "alive 2 0 0 2:5:6 1 1:5:6"], ["alive 2 0 0 2:5:6 0 1:5:6", "alive 3 0 0 2:5:6 0 1:5:7"],
            ["alive 2 0 0 2:5:6 3 1:5:6", "alive 3 0 0 1:5:6"], ["start till 0 5"], ["drop till"], ["alive"],
            ["register shop", "request shop 0", "request shop 0"], ["client shop 1 2"], ["worker ann"],
        ):  # fmt: skip
            with self.subTest(lines), self.assertRaises(BadDump) as caught:
                head_of(*lines)
            self.assertIn(repr(lines[-1]), str(caught.exception))

    def test_the_command(self) -> None:
        command = [sys.executable, "-m", "covetrivet", "convert"]
        with tempfile.NamedTemporaryFile("w", suffix=".dump") as file:
            file.write(SHOP.lstrip())
            file.flush()
            whole = [*command, file.name]
            told = subprocess.run(whole, capture_output=True, text=True, check=True)
            again = subprocess.run(command, input=SHOP, capture_output=True, text=True, check=True)
            self.assertEqual([told.stdout, again.stdout], [HEAD.lstrip()] * 2)
        wrong: list[tuple[list[str], int]] = [(["-x"], 64), (["a", "b"], 64), (["/nowhere"], 66), ([], 65)]
        for words, status in wrong:
            bad = subprocess.run([*command, *words], input="x", capture_output=True, text=True, check=False)
            self.assertEqual((bad.returncode, bad.stdout), (status, ""))
            self.assertNotIn("Traceback", bad.stderr)


if __name__ == "__main__":
    unittest.main()
