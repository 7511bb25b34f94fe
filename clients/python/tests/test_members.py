"""Who leads, what it answers, and how others follow and take over. The log is in memory here: tools/cluster
has nodes over a real one.
"""
from __future__ import annotations

import os
import signal
import unittest
from collections.abc import Callable
from unittest import mock

from covetrivet.replica import Replica
from covetrivet.shared_log import Base, Diverged, Record
from memory_log import MemoryLog, Node, Store
from serving import comes
from test_node import HEAD

SOON = 20


class Members(unittest.TestCase):
    def setUp(self) -> None:
        self.store = Store()
        self.nodes: list[Node] = []
        self.addCleanup(self.end)

    def end(self) -> None:
        for it in self.nodes:
            it.end()

    def node(self, who: str) -> Node:
        self.nodes.append(Node(self.store, who, HEAD))
        return self.nodes[-1]

    def comes(self, is_so: Callable[[], object]) -> None:
        self.assertTrue(comes(lambda: bool(is_so()), SOON))

    def asked(self, node: Node, *lines: str) -> list[str]:
        """Returns the answers to lines, where none before isn't answered."""
        had = len(node.answers)
        node.ask(*lines)
        self.comes(lambda: len(node.answers) == had + len(lines))
        return node.answers[had:]

    def test_one_leads_and_the_other_takes_over(self) -> None:
        first = self.node("n1")
        self.comes(lambda: first.token)
        second = self.node("n2")
        self.comes(lambda: second.leader == "n1")
        self.assertEqual(self.asked(first, "submit 1 5 6", "claim wa")[0], "submitted 0")
        first.end()
        self.comes(lambda: second.token)
        self.assertRegex(second.holds, r"^holds wa:0:\S*$")
        self.assertEqual(second.names, HEAD[1:])
        said = self.asked(second, "commit wa 15:1:2", "reply 0")
        self.assertEqual(said, ["wa done 0 unit 0 outputs 1 1", "replies 0 1:1:2"])
        self.assertEqual(first.member.stood[0], 1)

    def test_what_is_in_doubt_is_not_answered(self) -> None:
        for is_done in True, False:
            self.store, self.nodes = Store(), []
            node = self.node("n1")
            self.comes(lambda: node.token)
            before = node.token
            self.store.doubts.append(is_done)
            node.ask("submit 1 5 6")
            self.comes(lambda: node.token and node.token is not before)
            self.assertEqual(node.answers, [])
            self.assertEqual(node.why, "no answer came")
            # It leads again, and has performed what turned out to be in the log.
            self.assertEqual(self.asked(node, "submit 1 5 6"), [f"submitted {int(is_done)}"])
            node.end()

    def test_one_that_was_deposed_answers_nothing(self) -> None:
        node = self.node("n1")
        self.comes(lambda: node.token)
        self.store.next_term("n2")
        other = MemoryLog(self.store, "n2")
        node.ask("submit 1 5 6")
        self.comes(lambda: node.leader == "n2")
        self.assertEqual((node.why, node.answers), ("another node leads", []))
        # What the other one appends is performed here too.
        assert other.read(0) == []
        self.store.records[0] = Record("n2", "", ["submit 1 7 7"])
        self.comes(lambda: node.member.place() == 1)
        # What was asked before is performed no more once it leads again.
        node.ask("submit 1 8 8")
        self.store.next_term(None)
        self.comes(lambda: node.token)
        self.assertEqual(self.asked(node, "submit 1 5 6"), ["submitted 1"])
        self.assertEqual(node.answers, ["submitted 1"])

    def test_what_came_in_the_last_moment_is_performed_first(self) -> None:
        node = self.node("n1")
        self.comes(lambda: node.token)
        self.store.next_term("n2")
        node.ask("count")
        self.comes(lambda: node.leader == "n2")
        node.why = None
        self.store.late = [Record("n2", "", ["submit 1 7 7"])]
        self.store.next_term(None)
        self.comes(lambda: node.token)
        self.assertEqual(self.asked(node, "submit 1 5 6"), ["submitted 1"])
        self.assertIsNone(node.why)

    def test_a_record_has_so_many_lines_and_signs(self) -> None:
        node = self.node("n1")
        self.comes(lambda: node.token)
        self.asked(node, *["count"] * 2500, *["\xff" * 1000] * 400)
        records = self.store.records.values()
        self.assertEqual(sum(len(it.lines) for it in records), 2900)
        self.assertEqual(max(len(it.lines) for it in records), 1000)
        self.assertLess(max(len(it.text()) for it in records), 1_000_000)
        self.assertLess(len(records), 8)

    def test_the_log_is_made_short(self) -> None:
        with mock.patch("covetrivet.member.MOST_LINES", 100):
            first = self.node("n1")
            self.comes(lambda: first.token)
            # What is in hand, and what is lost, waits for nobody.
            self.asked(first, "submit 1 7 5", "submit 1 8 5", "claim wa", "claim wb", "kill 1")
            for at in range(60):
                self.asked(first, f"submit 3 {at} 5", f"kill {at + 2}")
            self.comes(lambda: (self.store.the_base or Base(0, "", ())).place > 0)
            base = self.store.the_base
            assert base
            self.assertEqual(min(self.store.records, default=base.place), base.place)
            self.comes(lambda: first.member.replica and first.member.replica.fed < 100)
            # One that comes now begins there, and answers the same. It knows who has something in hand.
            second = self.node("n2")
            self.comes(lambda: second.member.place() == first.member.place())
            first.end()
            self.comes(lambda: second.token)
        self.assertRegex(second.holds, r"^holds wa:0:\S* wb:1:\S*$")
        self.assertEqual(sorted(second.names), sorted(HEAD[1:]))
        said = self.asked(second, "submit 1 0 0", "abort wb", "commit wa 15:1:2", "reply 0")
        done = "wa done 0 unit 0 outputs 63 1"
        self.assertEqual(said, ["submitted 62", "wb already 1", done, "replies 0 63:1:2"])
        self.assertIsNone(second.fault)

    def test_a_short_log_that_is_in_doubt(self) -> None:
        # A leader that is deposed before the dump is in the log makes another one, once it leads again.
        with mock.patch.multiple("covetrivet.member", MOST_LINES=10, SECONDS_TO_COMPACT=0.3):
            node = self.node("n1")
            self.comes(lambda: node.token)
            self.asked(node, *["submit 1 5 6"] * 12)
            self.comes(lambda: node.member.next_base)
            self.store.next_term("n2")
            node.ask("count")
            self.comes(lambda: node.leader == "n2")
            self.assertEqual((self.store.the_base or Base(9, "", ())).place, 0)
            self.store.next_term(None)
            self.comes(lambda: (self.store.the_base or Base(0, "", ())).place > 0)
            self.assertEqual(self.asked(node, "submit 1 5 6"), ["submitted 12"])

    def test_one_that_is_behind_the_dump_begins_anew(self) -> None:
        node = self.node("n1")
        self.comes(lambda: node.token)
        self.asked(node, "submit 1 5 6")
        self.store.next_term("n2")
        self.comes(lambda: node.leader == "n2" or not node.ask("count"))
        self.store.records.clear()
        self.store.the_base = Base(9, "d0", [*HEAD, "numbers 4 0 0", "restore"])
        self.comes(lambda: node.member.place() == 9)
        self.store.next_term(None)
        self.comes(lambda: node.token)
        self.assertEqual(self.asked(node, "submit 1 5 6"), ["submitted 4"])

    def test_a_log_with_a_gap(self) -> None:
        node = self.node("n1")
        self.comes(lambda: node.token)
        self.store.next_term("n2")
        self.store.records[1] = Record("n2", "", ["count"])
        self.comes(lambda: node.fault or not node.ask("count"))
        self.assertIn("lacks record 0", str(node.fault))

    def test_answers_that_differ(self) -> None:
        node = self.node("n1")
        self.comes(lambda: node.token)
        self.store.next_term("n2")
        self.store.records[0] = Record("n2", "", ["count"])
        self.store.records[1] = Record("n2", "0" * 32, ["count"])
        self.comes(lambda: node.fault or not node.ask("count"))
        self.assertIsInstance(node.fault, Diverged)

    def test_a_session_that_does_not_answer(self) -> None:
        with mock.patch.object(Replica, "SECONDS", 1.0):
            node = self.node("n1")
            self.comes(lambda: node.token)
            assert node.member.replica
            os.kill(node.member.replica.process.pid, signal.SIGSTOP)
            node.ask("count")
            self.comes(lambda: node.fault)
        # Another one may lead.
        self.assertIn("has not answered in 1.0 seconds", str(node.fault))
        self.comes(lambda: self.store.holder is None)


if __name__ == "__main__":
    unittest.main()
