"""A server: its end, that of its session, that of its clients, and the place of its socket."""
from __future__ import annotations

import os
import random
import signal
import socket
import subprocess
import sys
import tempfile
import textwrap
import threading
import time
import unittest

from covetrivet import connect
from serving import Client, Serving, comes

TILL = ("server till eager 1 1 add",)
WORKER = ("worker packer 1", "worker other 1")


class ServeEnds(unittest.TestCase):
    def test_sigterm_in_the_middle(self) -> None:
        for number in (signal.SIGTERM, signal.SIGINT):
            with self.subTest(number), Serving(TILL) as server:
                said: list[str] = []

                def work(it: Client, said: list[str] = said) -> None:
                    it.send(*["submit 1 0 1", "turn till"] * 150)
                    said += it.rest()

                threads = [threading.Thread(target=work, args=(it,)) for it in server.clients(4)]
                for it in threads:
                    it.start()
                self.assertTrue(comes(lambda: server.counted("answer_seconds_count") > 100))
                server.signal(number)
                for it in threads:
                    it.join(20)
                status, out, _ = server.end()
                turns = len([it for it in said if it.startswith("till done")])
                # What was performed is answered, and what wasn't is not.
                self.assertEqual((status, out), (0, f"final till {turns}\n"))
                self.assertEqual(said.count("covetrivet: the server ends"), 4)
                self.assertFalse(os.path.exists(server.path) or os.path.exists(server.metrics))

    def test_lines_that_wait_are_not_performed(self) -> None:
        with Serving(TILL, "--lines", "10") as server:
            it = server.client()
            server.signal_session(signal.SIGSTOP)
            it.send(*["submit 1 0 1", "turn till"] * 100)
            self.assertTrue(comes(lambda: server.counted("lines_in_flight") >= 10))
            server.signal(signal.SIGTERM)
            time.sleep(0.3)
            server.signal_session(signal.SIGCONT)
            self.assertEqual(len(it.rest()), 10 + 1)
            self.assertEqual(server.end()[:2], (0, "final till 5\n"))

    def test_a_session_that_does_not_answer_is_ended(self) -> None:
        with Serving(TILL) as server:
            it = server.client()
            server.signal_session(signal.SIGSTOP)
            it.send("count")
            self.assertTrue(comes(lambda: server.counted("lines_in_flight") >= 1))
            server.signal(signal.SIGTERM)
            self.assertIn("SIGKILL", it.line())
            self.assertEqual(server.end()[:2], (1, ""))

    def test_the_session_is_killed_while_the_server_ends(self) -> None:
        begun = time.monotonic()
        with Serving(WORKER) as server:
            it = server.client()
            server.signal_session(signal.SIGSTOP)
            it.send("count")
            self.assertTrue(comes(lambda: server.counted("lines_in_flight") >= 1))
            server.signal(signal.SIGTERM)
            time.sleep(0.3)
            server.signal_session(signal.SIGKILL)
            self.assertIn("SIGKILL", it.line())
            self.assertEqual(server.end()[:2], (1, ""))
        self.assertLess(time.monotonic() - begun, 9)

    def test_the_session_is_killed(self) -> None:
        with Serving(WORKER) as server:
            clients = server.clients(30)
            for it in clients:
                it.send("submit 1 5 5")
                it.line()
            server.signal_session(signal.SIGKILL)
            for it in clients:
                (said,) = it.rest()
                self.assertRegex(said, "^covetrivet: the session is lost: .*SIGKILL")
            status, out, errors = server.end()
            self.assertEqual((status, out), (1, ""))
            self.assertIn("SIGKILL", errors)
            self.assertNotIn("Traceback", errors)
            self.assertFalse(os.path.exists(server.path))

    def test_the_session_is_killed_in_the_middle(self) -> None:
        with Serving(WORKER) as server:
            said: list[list[str]] = []

            def count(it: Client) -> None:
                it.send(*["count"] * 3000)
                said.append(it.rest())

            threads = [threading.Thread(target=count, args=(it,)) for it in server.clients(8)]
            for thread in threads:
                thread.start()
            self.assertTrue(comes(lambda: server.counted("answer_seconds_count") > 100))
            server.signal_session(signal.SIGKILL)
            for thread in threads:
                thread.join(20)
            self.assertEqual(server.end()[0], 1)
            self.assertLess(len(said), 8 + 1)
            for lines in said:
                self.assertEqual({it.split(" ")[0] for it in lines[:-1]} - {"waiting"}, set())

    def test_the_session_ends_by_a_fault(self) -> None:
        # (its first command is answered, by which the head is known to be taken, and who has units open)
        counted = "waiting 0 held 0 consumed 0 parked 0 killed 0"
        twice = f"read it; echo {counted}; echo {counted}; cat"
        for act in ("read it; echo 'fault 3 Write é' >&2; exit 1", twice):
            with tempfile.TemporaryDirectory() as folder:
                program = f"{folder}/words"
                with open(program, "w", encoding="utf-8") as file:
                    file.write(f"#!/bin/sh\nread it; echo {counted}\nread it; echo holds\n{act}\n")
                os.chmod(program, 0o755)
                before = os.environ.get("COVETRIVET_PROGRAM")
                os.environ["COVETRIVET_PROGRAM"] = program
                try:
                    with Serving([]) as server:
                        it = server.client()
                        it.send("count")
                        self.assertRegex(it.rest()[-1], "^covetrivet: the session is lost: ")
                        self.assertEqual(server.end()[0], 1)
                finally:
                    if before is None:
                        del os.environ["COVETRIVET_PROGRAM"]
                    else:
                        os.environ["COVETRIVET_PROGRAM"] = before


class ServePlaces(unittest.TestCase):
    def test_a_stale_socket(self) -> None:
        with tempfile.TemporaryDirectory() as folder:
            for _ in range(2):
                with Serving(WORKER, folder=folder) as server:
                    self.assertEqual(server.client().ask("submit 1 5 5"), ["submitted 0"])
                    server.signal(signal.SIGKILL)
                    server.end()
                    self.assertTrue(os.path.exists(server.path))

    def test_a_place_that_is_taken(self) -> None:
        with Serving(WORKER) as server:
            it = server.client()
            second = Serving(WORKER, folder=server.folder).begin()
            status, out, errors = second.end()
            self.assertEqual((status, out), (73, ""))
            self.assertIn("another server has", errors)
            self.assertEqual(it.ask("submit 1 5 5"), ["submitted 0"])
            self.assertEqual(server.client().ask("submit 1 5 5"), ["submitted 1"])

    def test_a_place_that_another_program_has(self) -> None:
        with tempfile.TemporaryDirectory() as folder:
            server = Serving(WORKER, folder=folder)
            with socket.socket(socket.AF_UNIX) as it:
                it.bind(server.path)
                it.listen()
                self.assertEqual(server.begin().end()[0], 73)
                self.assertTrue(os.path.exists(server.path))
            os.unlink(server.path)
            with open(server.path, "w", encoding="ascii") as file:
                file.write("kept")
            status, _, errors = server.begin().end()
            self.assertEqual(status, 73)
            self.assertIn("is no socket", errors)
            with open(server.path, encoding="ascii") as file:
                self.assertEqual(file.read(), "kept")

    def test_heads(self) -> None:
        with Serving(["worker packer 1", "submit 1 5 6", "claim packer"]) as server:
            said = server.client().ask("submit 1 7 7", "abort packer")
            self.assertEqual(said, ["submitted 1", "packer aborted 0"])
        with Serving(["numbers 8 0 0", "element 7 1:5:6:0:0 7 client nobody 0 waiting 2"]) as server:
            said = server.client().ask("read 7")
            self.assertEqual(said, ["7 stage 1 root 7 key 5 amount 6 by client waiting 2"])
        with Serving(["version", "keep 8", "version"]) as server:
            self.assertEqual(server.client().ask("keep 9", "submit 1 5 6"), ["keep 9", "submitted 0"])
        lines = ["keep 8", "worker packer 1", "register shop", "submit 1 5 6"]
        for at, wrong in enumerate(["kepe 8", "wroker packer 1", "regsiter shop", "worker packer 1000"]):
            with tempfile.TemporaryDirectory() as folder:
                status, _, errors = Serving([*lines[:at], wrong, *lines[at:]], folder=folder).begin().end()
                self.assertEqual(status, 65)
                self.assertIn(wrong, errors)
        command = [sys.executable, "-m", "covetrivet", "serve", "--socket", "/nowhere/it", "--head"]
        for words, status in (["/nowhere/head"], 66), (["/dev/null"], 73), (["/dev/null", "--mode", "9"], 64):
            it = subprocess.run([*command, *words], capture_output=True, text=True, check=False)
            self.assertEqual((it.returncode, it.stdout), (status, ""))
            self.assertNotIn("Traceback", it.stderr)


class ServeOrphans(unittest.TestCase):
    def test_they_are_kept(self) -> None:
        with Serving(WORKER) as server:
            with Client(server.path) as it:
                it.ask("submit 1 5 5", "claim packer")
            time.sleep(0.3)
            other = server.client()
            self.assertEqual(other.ask("claim other", "commit packer")[0], "other idle")

    def test_they_are_aborted(self) -> None:
        with Serving(WORKER, "--orphans", "abort:0.3") as server:
            with Client(server.path) as it:
                it.ask("submit 1 5 5", "claim packer")
            other = server.client()
            self.assertEqual(other.ask("claim packer"), ["packer busy"])
            self.assertTrue(comes(lambda: server.counted("orphans_aborted_total") == 1))
            self.assertRegex(other.ask("claim other")[0], "other work 0 unit .* attempt 2")

    def test_units_that_a_head_says_are_open(self) -> None:
        # Two have something in hand, or have lost it. One comes back in time.
        head = [*WORKER, "numbers 8 9 0", "hand packer 0 4", "hand other 7 5"]
        head += ["element 0 1:5:5:0:0 0 client nobody 0 held 4 1"]
        with Serving(head, "--orphans", "abort:0.5") as server:
            it = server.client()
            self.assertRegex(it.ask("commit packer")[0], "packer done 0 ")
            self.assertEqual(it.ask("claim other"), ["other busy"])
            self.assertTrue(comes(lambda: server.counted("orphans_aborted_total") == 1))
            self.assertEqual(it.ask("claim other"), ["other idle"])

    def test_the_claim_was_not_answered(self) -> None:
        # A client that ends with answers unread is gone at once, else once it is to be written to.
        for unread in 0, 1:
            with Serving(WORKER, "--orphans", "abort:0") as server:
                other = server.client()
                other.ask("submit 1 5 5")
                with Client(server.path) as it:
                    it.send(*["errors"] * unread)
                    many = 'answers_total{command="errors"}'
                    self.assertTrue(comes(lambda: server.counted(many) == unread))
                    server.signal_session(signal.SIGSTOP)
                    it.send("claim packer")
                    self.assertTrue(comes(lambda: server.counted("lines_in_flight") >= 1))
                self.assertTrue(comes(lambda: server.counted("connections") == 2 - unread))
                server.signal_session(signal.SIGCONT)
                self.assertTrue(comes(lambda: server.counted("orphans_aborted_total") == 1))
                self.assertRegex(other.ask("claim other")[0], "other work 0 unit .* attempt 2")

    def test_units_of_others_are_left_alone(self) -> None:
        # In time another client ends both units and begins another one: that is its own.
        with Serving(WORKER, "--orphans", "abort:0.4") as server:
            other = server.client()
            other.ask(*["submit 1 5 5"] * 3)
            with Client(server.path) as it:
                it.ask("claim packer", "claim other")
            said = other.ask("commit other", "commit packer", "claim packer")
            self.assertRegex(said[2], "packer work 2 ")
            time.sleep(0.8)
            self.assertEqual(server.counted("orphans_aborted_total"), 0)
            self.assertRegex(other.ask("commit packer")[0], "packer done 2 ")

    def test_a_line_of_another_is_under_way(self) -> None:
        # The commit and the claim aren't answered yet when the time is up.
        with Serving(WORKER, "--orphans", "abort:0.2") as server:
            other = server.client()
            other.ask("submit 1 5 5", "submit 1 6 6")
            with Client(server.path) as it:
                it.ask("claim packer")
                server.signal_session(signal.SIGSTOP)
            other.send("commit packer", "claim packer")
            time.sleep(0.6)
            server.signal_session(signal.SIGCONT)
            self.assertRegex(other.line(), "packer done 0 ")
            self.assertRegex(other.line(), "packer work 1 ")
            self.assertRegex(other.ask("commit packer")[0], "packer done 1 ")
            self.assertEqual(server.counted("orphans_aborted_total"), 0)

    def test_lines_that_come_alone(self) -> None:
        # What their answers say is noted behind them, and is known in time though nothing else comes.
        with Serving(WORKER, "--orphans", "abort:1") as server:
            other = server.client()
            other.ask(*["submit 1 5 5"] * 2)
            with Client(server.path) as it:
                self.assertRegex([it.ask(line)[0] for line in ("count", "claim packer")][1], "packer work 0 ")
            time.sleep(2)
            self.assertRegex(other.ask("claim packer")[0], "packer work 0 .* attempt 2 ")
            with Client(server.path) as it:
                it.ask("claim other")
            self.assertRegex([other.ask(line)[0] for line in ("count", "commit other")][1], "other done 1 ")
            time.sleep(2)
            self.assertEqual(server.counted("orphans_aborted_total"), 1)

    def test_workers_that_are_killed(self) -> None:
        # Each order is worked on to its end once, whoever was killed in the midst of it.
        worker = """
            import sys, time
            from covetrivet import Draft, connect, refusals
            with connect(sys.argv[1]) as session:
                while True:
                    try:
                        while work := session.claim(sys.argv[2]):
                            time.sleep(0.005)
                            session.commit(sys.argv[2], Draft(15, work.words[0]))
                    except refusals.Busy:
                        pass
                    time.sleep(0.01)
        """
        names, dice = "abcd", random.Random(5)
        head = ["limit 7", *(f"worker {it} 1" for it in names)]
        with Serving(head, "--orphans", "abort:0.05") as server, connect(server.path) as session:
            words = [sys.executable, "-c", textwrap.dedent(worker), server.path]
            at_work = {it: subprocess.Popen([*words, it], stderr=subprocess.DEVNULL) for it in names}
            orders = []
            try:
                for step in range(200):
                    orders.append(session.submit(1, step).element)
                    if step % 8 == 7:
                        name = dice.choice(names)
                        time.sleep(dice.random() * 0.3)
                        at_work[name].kill()
                        at_work[name].wait()
                        at_work[name] = subprocess.Popen([*words, name], stderr=subprocess.DEVNULL)
                self.assertTrue(comes(lambda: session.count().consumed == len(orders)))
            finally:
                for it in at_work.values():
                    it.kill()
                    it.wait()
            replies = [[it.words[0] for it in session.collect(order)] for order in orders]
            self.assertEqual(replies, [[step] for step in range(200)])


if __name__ == "__main__":
    unittest.main()
