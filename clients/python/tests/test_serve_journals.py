"""A server whose session has a journal: the session's process, the server and clients are killed."""
from __future__ import annotations

import contextlib
import itertools
import os
import random
import signal
import tempfile
import threading
import time
import unittest
from unittest import mock

from covetrivet import Unknown, connect, program, submit
from serving import SECONDS, Client, Serving, comes

HEAD = ("limit 7", "server till eager 2 1 add", "worker packer 1")
# (by hand more: COVETRIVET_TEST_KILLS=300)
KILLS, OF_ONE_JOURNAL = int(os.environ.get("COVETRIVET_TEST_KILLS", "9")), 9


class ServeJournals(unittest.TestCase):
    def setUp(self) -> None:
        folder = tempfile.TemporaryDirectory()
        self.addCleanup(folder.cleanup)
        self.folder = folder.name
        self.journal = f"{self.folder}/journal"

    def server(self) -> Serving:
        return Serving(HEAD, "--journal", self.journal, folder=self.folder)

    def restarted(self, server: Serving, count: int) -> None:
        """Waits until the session has gone on so many times."""
        self.assertTrue(comes(lambda: server.counted("session_restarts_total") == count))

    def test_the_session_is_killed(self) -> None:
        with self.server() as server:
            it, other = server.clients(2)
            self.assertEqual(it.ask("submit 1 5 6", "claim packer")[0], "submitted 0")
            for count in range(1, 4):
                server.signal_session(signal.SIGKILL)
                self.restarted(server, count)
                # Connections stay, and so does the work in hand.
                self.assertEqual(other.ask("claim packer", "count")[0], "packer busy")
            done = it.ask("commit packer 2:0:10 15:5:6", "turn till", "reply 0")
            self.assertEqual([len(done), done[2].split(":")[1:]], [3, ["5", "6"]])
            server.signal(signal.SIGTERM)
            self.assertEqual(it.rest(), ["covetrivet: the server ends"])
            status, out, errors = server.end()
            self.assertEqual((status, out), (0, "final till 10\n"))
            self.assertEqual(errors.count("goes on over its journal"), 3)

    def test_what_was_not_answered_is_unknown(self) -> None:
        with self.server() as server, connect(server.path) as session:
            it = server.client()
            self.assertEqual(it.ask("submit 1 5 6"), ["submitted 0"])
            server.signal_session(signal.SIGSTOP)
            it.send("submit 1 7 8", "submit 1 9 9")
            self.assertTrue(comes(lambda: server.counted("lines_in_flight") >= 2))
            server.signal_session(signal.SIGKILL)
            # The stopped process had read neither.
            self.assertEqual([it.line(), it.line()], ["unknown", "unknown"])
            self.assertEqual(it.ask("submit 1 7 8"), ["submitted 1"])
            for count in range(2):
                server.signal_session(signal.SIGSTOP)
                threading.Timer(0.5, server.signal_session, [signal.SIGKILL]).start()
                with self.assertRaises(Unknown):
                    if count:
                        session.submit(1, 10)
                    with session.batch() as batch:
                        asked = batch.add(submit(1, 11))
                    asked.value
            # Neither the connection nor the session in Python is broken by it.
            self.assertEqual(session.submit(1, 12).element, 2)

    def test_what_was_not_written_is_unknown(self) -> None:
        with self.server() as server:
            clients = server.clients(8)
            server.signal_session(signal.SIGSTOP)
            # (more than a pipe holds)
            for it in clients:
                it.send(*["x" * 190] * 64)
            self.assertTrue(comes(lambda: server.counted("lines_in_flight") >= 512))
            server.signal_session(signal.SIGKILL)
            for it in clients:
                self.assertEqual([it.line() for _ in range(64)], ["unknown"] * 64)
            # (three of the head and the first command. What asked for open units at the start wasn't put
            # down, and isn't counted; what asks for them again is)
            said = clients[0].ask("submit 1 5 6", "x")
            self.assertEqual(said, ["submitted 0", "refused line 7: 1 Syntax"])

    def test_the_server_is_killed(self) -> None:
        told = -1
        for count in range(3):
            with self.server() as server:
                it = server.client()
                it.send(*[f"submit 1 {count} 7"] * 20)
                for _ in range(10):
                    element = int(it.line().split(" ")[1])
                    self.assertGreater(element, told)
                    told = element
                server.signal(signal.SIGKILL)
                for said in it.rest():
                    told = int(said.split(" ")[1])
                server.end()
        with self.server() as server:
            waiting = int(server.client().ask("count")[0].split(" ")[1])
            self.assertTrue(told + 1 <= waiting <= 60, (told, waiting))

    def test_an_end_in_order(self) -> None:
        for count in range(2):
            with self.server() as server:
                it = server.client()
                if not count:
                    self.assertEqual(it.ask("submit 1 5 6", "claim packer")[0], "submitted 0")
                self.assertEqual(it.ask("claim packer"), ["packer busy"])
                server.signal(signal.SIGTERM)
                self.assertEqual(server.end()[:2], (0, "final till 0\n"))

    def test_a_journal_that_is_none(self) -> None:
        for text, status in (b"keep 8\n", 74), (b"", 0):
            with open(self.journal, "wb") as file:
                file.write(text)
            server = self.server().begin()
            if not status:
                server.ready()
                server.signal(signal.SIGTERM)
            said = server.end()
            self.assertEqual(said[0], status)
            self.assertEqual("no journal" in said[2], status == 74)

    def test_a_head_that_is_refused(self) -> None:
        for wrong in "worker late 1000", "wroker late 2":
            bad = Serving([*HEAD, wrong], "--journal", self.journal, folder=self.folder)
            self.assertEqual(bad.begin().end()[0], 65)
        with open(self.journal, "rb") as file:
            self.assertNotIn(b"late", file.read())
        with self.server() as server:
            self.assertEqual(server.client().ask("claim packer"), ["packer idle"])

    def test_a_session_that_ends_again_and_again(self) -> None:
        found = " ".join(program.find())
        # (what the server asks behind a start is answered, and nothing else)
        nothing = "read it; echo holds"
        for act, why in (
            ("echo recovered 3; exit 1", "status 1"),
            (f"echo recovered 3; {nothing}; exit 1", "status 1"),
            ("echo 'fault 4 Journal: damaged from line 3 on' >&2; exit 1", "damaged from line 3 on"),
        ):
            with tempfile.TemporaryDirectory() as folder:
                name = f"{folder}/twice"
                with open(name, "w", encoding="ascii") as file:
                    file.write(f"#!/bin/sh\n[ ! -e {folder}/dying ] || {{ {act}; }}\nexec {found} \"$@\"\n")
                os.chmod(name, 0o755)
                with mock.patch.dict(os.environ, {program.VARIABLE: name}):
                    with Serving(HEAD, "--journal", f"{folder}/journal", folder=folder) as server:
                        it = server.client()
                        self.assertEqual(it.ask("submit 1 5 6"), ["submitted 0"])
                        with open(f"{folder}/dying", "w", encoding="ascii"):
                            pass
                        server.signal_session(signal.SIGKILL)
                        (said,) = it.rest()
                        self.assertRegex(said, f"^covetrivet: the session is lost: .*{why}")
                        self.assertIn(server.end()[0], (1, 74))

    def test_kills_at_random_moments(self) -> None:
        for seed in range(-(-KILLS // OF_ONE_JOURNAL)):
            with self.subTest(seed):
                Killed(self, random.Random(seed)).run()
                os.unlink(self.journal)


class Killed:
    """Clients that submit, one that works, and kills of the server, of its session and of clients. What was
    told is there, once, and is the caller's own; what wasn't is there or not. Each order is replied to once.
    """

    def __init__(self, test: ServeJournals, chance: random.Random) -> None:
        self.test, self.chance = test, chance
        self.sure: dict[int, int] = {}
        self.unsure: set[int] = set()
        self.said: set[str] = set()
        self.lock = threading.Lock()
        self.keys = iter(range(1, 400))

    def submit(self, server: Serving, over: threading.Event) -> None:
        """Clients, one after another: each ends in the midst of a line."""
        while not over.wait(0.01):
            with Client(server.path) as it:
                for _ in range(self.chance.randint(1, 20)):
                    with self.lock:
                        asked = list(itertools.islice(self.keys, self.chance.randint(1, 8)))
                    it.send(*[f"submit 1 {key} 0" for key in asked])
                    for key in asked:
                        self.hear(key, it.line())
                    if over.wait(0.01):
                        return
                with contextlib.suppress(OSError):
                    it.socket.send(b"submit 1 1000 0")

    def hear(self, key: int, said: str) -> None:
        with self.lock:
            if said.startswith("submitted "):
                self.sure[key] = int(said.split(" ")[1])
            else:
                self.unsure.add(key)
                self.said.add(said)

    def work(self, server: Serving, over: threading.Event) -> None:
        """A worker. It gives up what it doesn't know."""
        with Client(server.path) as it:
            while not over.is_set():
                it.ask("abort packer")
                self.work_off(it)
                over.wait(0.01)

    def work_off(self, it: Client) -> None:
        """Replies to orders until none waits, or an answer is missing."""
        while (words := it.ask("claim packer")[0].split(" "))[:2] == ["packer", "work"]:
            key = words[10].split(":")[0]
            if it.ask(f"commit packer 15:{key}:0")[0] in ("unknown", ""):
                return

    def life(self) -> None:
        with self.test.server() as server:
            over = threading.Event()
            acts = [self.work, *[self.submit] * 3]
            clients = [threading.Thread(target=act, args=(server, over)) for act in acts]
            for it in clients:
                it.start()
            for count in range(1, 3):
                time.sleep(self.chance.random() * 0.3)
                server.signal_session(signal.SIGKILL)
                self.test.restarted(server, count)
            time.sleep(self.chance.random() * 0.2)
            over.set()
            server.signal(signal.SIGKILL)
            for it in clients:
                it.join(SECONDS)
            server.end()

    def run(self) -> None:
        for _ in range(3):
            self.life()
        with self.test.server() as server:
            client = server.client()
            client.ask("abort packer")
            self.work_off(client)
            alive = [client.line() for _ in range(int(client.ask("dump")[0].split(" ")[1]))]
        words = [it.split(" ") for it in alive if it.startswith("> element ")]
        words = [it for it in words if it[8] in ("waiting", "held", "parked")]
        # (nothing but replies is left: `> element ID 15:KEY:.. ROOT MAKER nobody 0 waiting 0`)
        found = {int(it[3].split(":")[1]): int(it[4]) for it in words}
        self.test.assertEqual({it[3].split(":")[0] for it in words}, {"15"})
        self.test.assertEqual(len(found), len(words))
        self.test.assertGreater(len(self.sure), 0)
        self.test.assertEqual({key: found.get(key) for key in self.sure}, self.sure)
        self.test.assertEqual(set(found) - set(self.sure) - self.unsure, set())
        # (where the server was killed nothing more is said)
        self.test.assertEqual(self.said - {"unknown", ""}, set())


if __name__ == "__main__":
    unittest.main()
