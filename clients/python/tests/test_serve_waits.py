"""A server: lines that wait for work or for a reply, and tags."""
from __future__ import annotations

import os
import random
import signal
import socket
import subprocess
import sys
import tempfile
import threading
import time
import unittest
from pathlib import Path
from unittest import mock

from covetrivet import program
from serving import SECONDS, Client, Serving, comes

HEAD = (
    "limit 7", "server till eager 6 1 add 7:same:same", "worker packer 1", "worker other 2", "worker third 1",
    "worker late 7", "register shop", "register mall",
)  # fmt: skip


class Waits(unittest.TestCase):
    def setUp(self) -> None:
        self.server = Serving(HEAD, *self.options()).__enter__()
        self.addCleanup(self.server.__exit__, None, None, None)
        self.tell = self.server.client()

    def options(self) -> tuple[str, ...]:
        return ()

    def waiting(self, *lines: str) -> Client:
        """Returns a client whose last line waits."""
        it, before = self.server.client(), self.server.counted("lines_waiting")
        it.send(*lines)
        self.assertTrue(comes(lambda: self.server.counted("lines_waiting") == before + 1), lines)
        self.assertTrue(comes(lambda: self.server.counted("lines_in_flight") == 0))
        return it

    def quiet(self, it: Client) -> bool:
        """Whether nothing comes to a client."""
        self.tell.ask("count")
        it.socket.settimeout(0.05)
        try:
            return not it.socket.recv(1, socket.MSG_PEEK)
        except TimeoutError:
            return True
        finally:
            it.socket.settimeout(SECONDS)


class ServeWaits(Waits):
    def test_first_come_first_served(self) -> None:
        first, second = self.waiting("claim packer wait 60"), self.waiting("next third wait 60")
        other = self.waiting("claim other wait 60")
        self.assertEqual(self.tell.ask("submit 1 5 6"), ["submitted 0"])
        self.assertRegex(first.line(), "^packer work 0 .* body 5:6:0:0 try 1$")
        self.assertTrue(self.quiet(second) and self.quiet(other))
        self.tell.ask("submit 1 7 8")
        self.assertRegex(second.line(), "^third work 1 ")
        self.assertTrue(self.quiet(other))

    def test_an_arrival_takes_two_tries_at_most(self) -> None:
        them = [self.waiting("claim packer wait 60")]
        for at in range(30):
            self.tell.ask(f"worker w{at} 1")
            them.append(self.waiting(f"claim w{at} wait 60"))
        before = self.server.counted("wait_tries_total")
        self.tell.ask("submit 1 5 6", "submit 3 5 6")
        self.assertRegex(them[0].line(), "work 0 ")
        self.assertTrue(comes(lambda: self.server.counted("lines_in_flight") == 0))
        self.assertIn(self.server.counted("wait_tries_total") - before, (1, 2))

    def test_its_time_is_over(self) -> None:
        it = self.server.client()
        begun = time.monotonic()
        self.assertEqual(it.ask("claim packer wait 1"), ["packer idle"])
        self.assertTrue(0.9 < time.monotonic() - begun < SECONDS)
        self.assertEqual(it.ask("claim packer wait 0", "claim nobody wait 9")[0], "packer idle")
        # What isn't one of these lines is the program's to refuse.
        refused = it.ask("claim packer wait", "claim packer wait x", "count wait 5", "claim wait 5")
        self.assertEqual({it.split(" ")[-1] for it in refused}, {"Syntax"})

    def test_later_lines_come_behind_it(self) -> None:
        it = self.waiting("claim packer wait 60", "count")
        self.assertTrue(self.quiet(it))
        self.tell.ask("submit 1 5 6")
        self.assertRegex(it.line(), "^packer work 0 ")
        self.assertEqual(it.line(), "waiting 0 held 1 consumed 0 parked 0 killed 0")

    def test_behind_a_tag_later_lines_go_on(self) -> None:
        it = self.waiting("@1 claim packer wait 60", "@2 count")
        self.assertEqual(it.line(), "@2 waiting 0 held 0 consumed 0 parked 0 killed 0")
        it.send("@3 claim other wait 60")
        self.tell.ask("submit 2 5 6")
        self.assertRegex(it.line(), "^@3 other work 0 ")
        self.tell.ask("submit 1 5 6")
        self.assertRegex(it.line(), "^@1 packer work 1 ")

    def test_who_is_gone_takes_nothing(self) -> None:
        for tag in "", "@1 ":
            self.waiting(f"{tag}claim packer wait 60").close()
            self.assertTrue(comes(lambda: self.server.counted("lines_waiting") == 0))
            self.assertTrue(comes(lambda: self.server.counted("connections") == 1))
        self.tell.ask("submit 1 5 6")
        self.assertRegex(self.tell.ask("claim third")[0], "^third work 0 ")

    def test_who_goes_while_it_is_tried_keeps_nobody_waiting(self) -> None:
        # Two come at once. The first of those who wait takes one of them, and is gone when that is answered.
        self.tell.ask("worker later 7", "submit 6 0 6", "submit 6 0 7")
        gone, second = self.waiting("claim late wait 60"), self.waiting("claim later wait 60")
        self.server.signal_session(signal.SIGSTOP)
        self.tell.send("drain")
        self.assertTrue(comes(lambda: self.server.counted("lines_in_flight") >= 1))
        gone.close()
        self.server.signal_session(signal.SIGCONT)
        self.assertEqual(self.tell.line(), "drained")
        self.assertRegex(second.line(), "^later work ")

    def test_who_comes_later_takes_nothing_of_who_waits(self) -> None:
        first = self.waiting("claim packer wait 60")
        self.server.signal_session(signal.SIGSTOP)
        self.tell.send("submit 1 5 6")
        self.assertTrue(comes(lambda: self.server.counted("lines_in_flight") >= 1))
        second = self.server.client()
        second.send("claim third wait 60")
        self.assertTrue(comes(lambda: self.server.counted("lines_waiting") == 2))
        self.server.signal_session(signal.SIGCONT)
        self.assertRegex(first.line(), "^packer work 0 ")
        self.tell.line()
        self.assertTrue(self.quiet(second))

    def test_several_that_a_drain_makes(self) -> None:
        self.tell.ask("worker later 7", "worker last 7", *["submit 6 0 6"] * 3)
        them = [self.waiting(f"claim {it} wait 60") for it in ("late", "later", "last")]
        self.assertEqual(self.tell.ask("drain"), ["drained"])
        self.assertEqual([it.line().split(" ")[2] for it in them], ["3", "4", "5"])

    def test_several_that_come_at_once(self) -> None:
        them = [self.waiting("claim packer wait 60"), self.waiting("claim third wait 60")]
        self.tell.ask("submit 2 0 0", "claim other", "worker x 1")
        them.append(self.waiting("claim x wait 60"))
        self.tell.ask("commit other 1:1:1 1:2:2 1:3:3")
        ids = [it.line().split(" ")[2] for it in them]
        self.assertEqual(ids, ["1", "2", "3"])

    def test_workers_that_come_and_go(self) -> None:
        self.tell.ask("worker new 4")
        it = self.waiting("claim new wait 60")
        self.tell.ask("submit 3 5 6", "submit 5 5 6")
        self.assertTrue(self.quiet(it))
        self.tell.ask("submit 4 5 6")
        self.assertRegex(it.line(), "^new work 2 ")
        self.tell.ask("commit new")
        # One that is gone is told so, and one that takes from another stage has what waits there.
        it = self.waiting("claim new wait 60")
        self.tell.ask("leave new")
        self.assertRegex(it.line(), "BadName")
        self.tell.ask("worker new 4")
        it, other = self.waiting("claim new wait 60"), self.waiting("claim packer wait 60")
        self.server.signal_session(signal.SIGSTOP)
        self.tell.send("leave new", "worker new 8")
        self.assertTrue(comes(lambda: self.server.counted("lines_in_flight") >= 2))
        self.server.signal_session(signal.SIGCONT)
        self.assertEqual([self.tell.line(), self.tell.line()], ["left new none", "joined new"])
        self.tell.ask("submit 8 5 6")
        self.assertRegex(it.line(), "^new work 3 ")
        self.tell.ask("submit 1 5 6")
        self.assertRegex(other.line(), "^packer work 4 ")

    def test_a_worker_with_work_in_hand(self) -> None:
        self.tell.ask("submit 1 5 6", "claim packer")
        self.waiting("claim third wait 60")
        self.assertEqual(self.server.client().ask("claim packer wait 60"), ["packer busy"])

    def test_servers_wait_too(self) -> None:
        it = self.waiting("claim till wait 60")
        self.tell.ask("submit 6 5 6")
        self.assertEqual(it.line(), "till work 0 unit 0 attempt 1")

    def test_replies(self) -> None:
        self.tell.ask("send shop 1 1 5 6", "send mall 1 1 7 8")
        shop, mall = self.waiting("receive shop 1 wait 60"), self.waiting("@m receive mall 1 wait 60")
        self.tell.ask("claim packer", "commit packer 2:1:1", "claim packer")
        self.assertTrue(self.quiet(shop) and self.quiet(mall))
        self.tell.ask("commit packer 15:9:9")
        self.assertEqual(mall.line(), "@m received mall 1 3 1 9:9:0:0")
        self.assertTrue(self.quiet(shop))
        self.tell.ask("claim other", "commit other 15:4:4")
        self.assertEqual(shop.line(), "received shop 1 4 0 4:4:0:0")
        self.assertEqual(shop.ask("receive shop 2 wait 0"), ["received shop 2 none"])

    def test_a_client_that_says_no_more(self) -> None:
        words = [sys.executable, "-m", "covetrivet", "call", "--socket", self.server.path]
        words.append("claim packer wait 60")
        with subprocess.Popen(words, stdout=subprocess.PIPE, text=True) as it:
            self.assertTrue(comes(lambda: self.server.counted("lines_waiting") == 1))
            self.tell.ask("submit 1 5 6")
            self.assertRegex(it.communicate(timeout=SECONDS)[0], "^packer work 0 ")
            self.assertEqual(it.returncode, 0)

    def test_the_server_ends(self) -> None:
        it = self.waiting("claim packer wait 60")
        self.server.signal(signal.SIGTERM)
        self.assertEqual(it.rest(), ["covetrivet: the server ends"])
        self.assertEqual(self.server.end()[0], 0)

    def test_nothing_is_lost_and_nothing_comes_twice(self) -> None:
        """Workers that wait, clients that submit, and workers that are gone in the midst of it."""
        dice, orders, many = random.Random(3), 300, 12
        for at in range(many):
            self.tell.ask(f"worker w{at} {1 + at % 3}")
        took, over = list[str](), threading.Event()

        def work(name: str, chance: random.Random) -> None:
            while not over.is_set():
                with Client(self.server.path) as it:
                    for _ in range(chance.randint(1, 20)):
                        words = it.ask(f"claim {name} wait 1")[0].split(" ")
                        if words[1:2] == ["work"]:
                            took.append(words[10].split(":")[0])
                            it.ask(f"commit {name}")
                        if over.is_set():
                            return
                    it.send(f"claim {name} wait 1")
                # (what that took, where it did, is given up by hand)
                with Client(self.server.path) as it:
                    it.ask(f"abort {name}")

        threads = [threading.Thread(target=work, args=(f"w{at}", random.Random(at))) for at in range(many)]
        for it in threads:
            it.start()
        for key in range(orders):
            self.tell.ask(f"submit {1 + key % 3} {key + 1} 0")
            if dice.random() < 0.3:
                time.sleep(dice.random() * 0.02)
        counted = f"waiting 0 held 0 consumed {orders} parked 0 killed 0"
        is_done = comes(lambda: self.tell.ask("count") == [counted])
        over.set()
        for it in threads:
            it.join(SECONDS)
        self.assertTrue(is_done, self.tell.ask("count", "holds", "depth"))
        self.assertEqual(sorted(map(int, took)), list(range(1, orders + 1)))


class ServeWakes(Waits):
    """Each line that has something wait again, or anew, wakes who waits for it."""

    def wakes(self, wait: str, before: list[str], *lines: str) -> None:
        self.tell.ask(*before)
        it = self.waiting(f"claim {wait} wait 60")
        self.tell.ask(*lines)
        self.assertRegex(it.line(), f"^{wait} work ", lines)

    def test_an_abort(self) -> None:
        self.wakes("third", ["submit 1 5 6", "claim packer"], "abort packer")

    def test_an_abort_of_what_was_taken(self) -> None:
        self.wakes("third", ["submit 1 5 6", "take other 0"], "abort other")

    def test_a_release(self) -> None:
        self.wakes("third", ["submit 1 5 6", "claim packer"], "release 0")

    def test_a_requeue(self) -> None:
        self.wakes("third", ["submit 1 5 6", *["claim packer", "abort packer"] * 7], "requeue 0")

    def test_a_worker_that_leaves(self) -> None:
        self.wakes("third", ["submit 1 5 6", "claim packer"], "leave packer")

    def test_a_commit(self) -> None:
        self.wakes("third", ["submit 2 5 6", "claim other"], "commit other 15:1:1 1:1:1")

    def test_a_commit_of_a_server(self) -> None:
        self.wakes("late", ["submit 6 0 6", "claim till"], "commit till")

    def test_a_turn(self) -> None:
        self.wakes("late", ["submit 6 0 6"], "turn till")

    def test_a_drain(self) -> None:
        self.wakes("late", ["submit 6 0 6"], "drain")

    def test_a_drop(self) -> None:
        self.wakes("six", ["worker six 6", "submit 6 5 6", "claim till"], "drop till")

    def test_a_send(self) -> None:
        self.wakes("third", [], "send shop 1 1 5 6")


class ServeWaitsOrphans(Waits):
    def options(self) -> tuple[str, ...]:
        return "--orphans", "abort:0.2"

    def test_an_orphan_wakes(self) -> None:
        self.tell.ask("submit 1 5 6")
        with Client(self.server.path) as it:
            it.ask("claim packer")
            other = self.waiting("claim third wait 60")
        self.assertRegex(other.line(), "^third work 0 unit .* attempt 2 ")

    def test_what_a_gone_client_took_is_given_up(self) -> None:
        gone = self.waiting("claim packer wait 60")
        self.server.signal_session(signal.SIGSTOP)
        self.tell.send("submit 1 5 6")
        self.assertTrue(comes(lambda: self.server.counted("lines_in_flight") >= 1))
        gone.close()
        self.server.signal_session(signal.SIGCONT)
        self.tell.line()
        self.assertRegex(self.server.client().ask("claim third wait 60")[0], "^third work 0 ")


class ServeWaitsJournals(unittest.TestCase):
    def test_the_session_is_killed(self) -> None:
        with tempfile.TemporaryDirectory() as folder:
            options = "--journal", f"{folder}/journal"
            with Serving(HEAD, *options, folder=folder) as server:
                it, tried, tell = server.clients(3)
                it.send("claim packer wait 60")
                self.assertTrue(comes(lambda: server.counted("lines_waiting") == 1))
                server.signal_session(signal.SIGSTOP)
                tried.send("claim other wait 60")
                self.assertTrue(comes(lambda: server.counted("lines_in_flight") >= 1))
                server.signal_session(signal.SIGKILL)
                # One whose line the program had is told so; the other one waits on.
                self.assertEqual(tried.line(), "unknown")
                self.assertEqual(tell.ask("submit 1 5 6"), ["submitted 0"])
                self.assertRegex(it.line(), "^packer work 0 ")
                server.signal(signal.SIGTERM)
                server.end()
            # The stage of a worker that came behind the head is in the journal.
            with Serving(HEAD, *options, folder=folder) as server:
                it, tell = server.clients(2)
                tell.ask("worker new 9", "leave third")
                server.signal(signal.SIGKILL)
                server.end()
            with Serving(HEAD, *options, folder=folder) as server:
                it, other, tell = server.clients(3)
                it.send("claim new wait 60")
                other.send("claim late wait 60")
                self.assertTrue(comes(lambda: server.counted("lines_waiting") == 2))
                before = server.counted("wait_tries_total")
                tell.ask("submit 8 1 1")
                self.assertEqual(server.counted("wait_tries_total"), before)
                tell.ask("submit 9 1 1")
                self.assertRegex(it.line(), "^new work ")

    def test_what_came_before_the_session_was_killed(self) -> None:
        """It is in the journal, and nothing was told of it."""
        found = " ".join(program.find())
        with tempfile.TemporaryDirectory() as folder:
            # A program that tells three answers alone where a file is there: its beginning, and `idle`.
            name, mute = f"{folder}/muted", f"{folder}/mute"
            with open(name, "w", encoding="ascii") as file:
                file.write(f'#!/bin/sh\n[ -e {mute} ] || exec {found} "$@"\nrm {mute}\n')
                file.write(f'{found} "$@" | {{ sed -u 3q; sleep 100; }}\n')
            os.chmod(name, 0o755)
            told = {program.VARIABLE: name}
            options = "--journal", f"{folder}/journal"
            with mock.patch.dict(os.environ, told), Serving(HEAD, *options, folder=folder) as server:
                it, tell = server.clients(2)
                it.send("claim packer wait 60")
                self.assertTrue(comes(lambda: server.counted("lines_waiting") == 1))
                with open(mute, "w", encoding="ascii"):
                    pass
                server.signal_session(signal.SIGKILL)
                self.assertTrue(comes(lambda: server.counted("session_restarts_total") == 1))
                tell.send("submit 1 5 6")
                journal = Path(f"{folder}/journal")
                self.assertTrue(comes(lambda: b"submit 1 5 6\n" in journal.read_bytes()))
                with open(f"{folder}/pid", encoding="ascii") as file:
                    os.killpg(int(file.read()), signal.SIGKILL)
                self.assertEqual(tell.line(), "unknown")
                self.assertRegex(it.line(), "^packer work 0 ")


class ServeTags(unittest.TestCase):
    def test_tags(self) -> None:
        with Serving(HEAD) as server:
            it = server.client()
            counted = "waiting 1 held 0 consumed 0 parked 0 killed 0"
            longest = "a.b_c-D" + "9" * 13
            lines = ["@1 submit 1 5 6", f"@{longest} count", "@x", "@y ", "@z # any", "count", "@q  nonsense"]
            said = it.ask(*lines)
            wanted = ["@1 submitted 0", f"@{longest} {counted}", "@x", "@y", "@z", counted]
            self.assertEqual(said[:-1], wanted)
            self.assertRegex(said[-1], r"^@q refused line \d+: 1 Syntax$")
            # What is no tag is the program's to refuse.
            for line in "@", "@ count", "@a:b count", f"@{longest}0 count", "@a\tcount":
                self.assertRegex(it.ask(line)[0], r"^refused line \d+: 1 Syntax$")
            it.send("@d dump", "@e count")
            many = int(it.line().removeprefix("@d dumped "))
            self.assertEqual({it.line()[:5] for _ in range(many)}, {"@d > "})
            self.assertEqual(it.line(), f"@e {counted}")
            self.assertRegex(it.ask("@long " + "9" * 1024)[0], "^@long refused line .* TooLong$")
            self.assertRegex(it.ask("@long #" + "9" * 1022, "count")[0], "^@long$")

    def test_each_has_its_own(self) -> None:
        with Serving(HEAD) as server:
            clients = server.clients(20)
            for step in range(20):
                for key, it in enumerate(clients):
                    submits = (f"@{key}.{step}.{at} submit 1 {key} {at}" for at in range(9))
                    it.send(*submits, "# any", "@c # any")
                for key, it in enumerate(clients):
                    tags = [it.line().split(" ")[0] for _ in range(10)]
                    self.assertEqual(tags, [*(f"@{key}.{step}.{at}" for at in range(9)), "@c"])


if __name__ == "__main__":
    unittest.main()
