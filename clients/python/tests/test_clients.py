"""Clients that may crash, and what is known of workers' last units: calls, logs, and a server whose session
is lost.
"""
from __future__ import annotations

import contextlib
import os
import signal
import subprocess
import sys
import tempfile
import threading
import unittest
from collections.abc import Callable

from covetrivet import (
    Client, Draft, Last, LastWork, Received, Sent, Session, UnitEnd, Work, connect, refusals,
)  # fmt: skip
from serving import Serving

HEAD = ["worker packer 1", "register shop", "register web"]
NOTHING = Last(0, None, 0, None)
# a client of a server's session, whose path is `sys.argv[1]`
PROCESS = """
import sys
from covetrivet import Client, connect, refusals

with connect(sys.argv[1]) as session:
    client = Client(session, "web")
    print("begun", flush=True)
    for line in sys.stdin:
        try:
            print("sent", client.send((int(line),)).number, flush=True)
        except refusals.Fenced:
            print("Fenced", flush=True)
"""


class Clients(unittest.TestCase):
    def setUp(self) -> None:
        stack = contextlib.ExitStack()
        self.addCleanup(stack.close)
        self.stack = stack
        self.session = stack.enter_context(Session(HEAD))

    def test_sends(self) -> None:
        session = self.session
        self.assertEqual(session.last("shop"), NOTHING)
        self.assertEqual(session.send("shop", 1, 1, 5, 6), Sent(1, 0))
        self.assertEqual(session.send("shop", 1, 1, 5, 6), Sent(1, 0))
        for stage, *words in ((1, 7), (2, 5, 6)):
            with self.assertRaises(refusals.Differs):
                session.send("shop", 1, stage, *words)
        self.assertEqual(session.send("shop", 2, 1, 7, 8, 9, 10), Sent(2, 1))
        self.assertEqual(session.send("shop", 1, 1, 5, 6), Sent(1, None))
        self.assertEqual(session.last("shop"), Last(2, 1, 0, None))
        self.assertEqual([session.read(it).words for it in (0, 1)], [(5, 6, 0, 0), (7, 8, 9, 10)])
        self.assertEqual(session.count().waiting, 2)

    def test_receives(self) -> None:
        session = self.session
        for number in (1, 2):
            session.send("shop", number, 1, number)
            session.claim("packer")
            session.commit("packer", Draft(15, number, 7))
        # (the first reply is 1, the second order 2, and its reply 3)
        self.assertEqual(session.receive("shop", 1, 2), Received(1, 3, 2, (2, 7, 0, 0)))
        self.assertIsNone(session.receive("shop", 2, 2))
        self.assertEqual(session.receive("shop", 1), Received(1, 3, 2, (2, 7, 0, 0)))
        self.assertEqual(session.receive("shop", 2), Received(2, 1, 0, (1, 7, 0, 0)))
        self.assertIsNone(session.receive("shop", 3))
        with self.assertRaises(refusals.Past):
            session.receive("shop", 1)
        self.assertEqual(session.last("shop"), Last(2, 2, 2, Received(2, 1, 0, (1, 7, 0, 0))))
        self.assertEqual(session.collect(0), ())
        # the last number again is answered whatever the root
        self.assertEqual(session.receive("shop", 2, 5), session.last("shop").reply)

    def test_refusals(self) -> None:
        session = self.session
        session.send("shop", 1, 1, 5)
        refused: list[tuple[type[refusals.Refusal], Callable[[], object]]] = [
            (refusals.Gap, lambda: session.send("shop", 3, 1, 5)),
            (refusals.Gap, lambda: session.receive("shop", 2)),
            (refusals.BadStage, lambda: session.send("shop", 2, 15, 5)),
            (refusals.BadNumber, lambda: session.send("shop", 0, 1, 5)),
            (refusals.BadName, lambda: session.send("packer", 1, 1, 5)),
            (refusals.BadName, lambda: session.register("packer")),
            (refusals.Syntax, lambda: session.send("shop", 2, 1, 1, 2, 3, 4, 5)),
            (refusals.NotThere, lambda: session.send("nobody", 1, 1, 5)),
            (refusals.NotThere, lambda: session.last("nobody")),
            (refusals.NotThere, lambda: session.forget("nobody")),
            (refusals.NotThere, lambda: session.receive("shop", 1, 7)),
            # a worker's name for a client's, and the other way round
            (refusals.BadName, lambda: session.last("packer")),
            (refusals.BadName, lambda: session.last_work("shop")),
        ]
        for kind, call in refused:
            with self.subTest(kind.__name__), self.assertRaises(kind):
                call()
        self.assertEqual(session.last("shop"), Last(1, 0, 0, None))
        session.forget("shop")
        session.register("shop")
        session.register("shop")
        self.assertEqual(session.last("shop"), NOTHING)

    def test_last_work(self) -> None:
        session = self.session
        self.assertEqual(session.last_work("packer"), LastWork(None, None, None))
        session.submit(1, 5, 6)
        session.claim("packer")
        held = Work(0, 0, 1, 0, (5, 6, 0, 0))
        self.assertEqual(session.last_work("packer"), LastWork(held, None, None))
        session.abort("packer")
        self.assertEqual(session.last_work("packer"), LastWork(None, None, UnitEnd("aborted", 0)))
        session.claim("packer")
        session.release(0)
        self.assertEqual(session.last_work("packer"), LastWork(None, 0, UnitEnd("aborted", 0)))
        with self.assertRaises(refusals.Lost):
            session.commit("packer")
        self.assertEqual(session.last_work("packer"), LastWork(None, None, UnitEnd("lost", 0)))
        session.claim("packer")
        session.commit("packer", Draft(2, 1), Draft(15, 2))
        done = UnitEnd("done", 0, 2, range(1, 3))
        self.assertEqual(session.last_work("packer"), LastWork(None, None, done))
        session.submit(1, 7)
        session.claim("packer")
        session.commit("packer")
        self.assertEqual(session.last_work("packer").ended, UnitEnd("done", 3, 3))

    def test_a_client_goes_on(self) -> None:
        with self.assertRaises(refusals.NotThere):
            Client(self.session, "nobody")
        client = Client(self.session, "web")
        self.assertIsNone(client.receive_again())
        self.assertEqual([client.send((it, 30)) for it in (7, 8)], [Sent(1, 0), Sent(2, 1)])
        self.assertIsNone(client.receive())
        for _ in range(2):
            work = self.session.claim("packer")
            assert work
            self.session.commit("packer", Draft(15, *work.words))
        again = Client(self.session, "web")
        self.assertEqual((again.sent, again.received), (2, 0))
        self.assertEqual(again.receive(1), Received(1, 3, 1, (8, 30, 0, 0)))
        third = Client(self.session, "web")
        self.assertEqual(third.receive_again(), Received(1, 3, 1, (8, 30, 0, 0)))
        self.assertEqual(third.receive(), Received(2, 2, 0, (7, 30, 0, 0)))
        self.assertEqual(third.send((9,), 2), Sent(3, 4))
        self.assertEqual(third.last(), Last(3, 4, 2, Received(2, 2, 0, (7, 30, 0, 0))))

    def test_two_of_one_name(self) -> None:
        first = Client(self.session, "web")
        first.send((1,))
        second = Client(self.session, "web")
        with self.assertRaises(refusals.Fenced):
            first.send((2,))
        with self.assertRaises(refusals.Fenced):
            first.receive()
        self.assertEqual((second.send((3,)), self.session.count().waiting), (Sent(2, 1), 2))

    def test_a_refused_send_is_not_counted(self) -> None:
        client = Client(self.session, "web")
        for words, stage in (((1,), 15), ((-1,), 1)):
            with self.assertRaises(refusals.Refusal):
                client.send(words, stage)
        self.assertEqual((client.sent, client.send((1,))), (0, Sent(1, 0)))


class ClientLogs(unittest.TestCase):
    def setUp(self) -> None:
        folder = tempfile.TemporaryDirectory()
        self.addCleanup(folder.cleanup)
        self.path = os.path.join(folder.name, "orders.log")

    def test_a_log(self) -> None:
        with Session(HEAD, log=self.path) as session:
            client = Client(session, "web")
            sent = client.send((7,))
            session.claim("packer")
            session.commit("packer", Draft(15, 7))
            reply = client.receive()
            self.assertIsNone(client.receive())
        for life in range(3):
            with Session.from_log(self.path) as session:
                client = Client(session, "web")
                self.assertEqual((client.sent, client.received), (1, 1))
                self.assertEqual(session.last("shop"), NOTHING)
                self.assertEqual((client.last().element, client.receive_again()), (sent.element, reply))
                if life == 0:
                    session.shorten_log()

    def test_many_clients(self) -> None:
        names = [f"client-{it}" for it in range(200)]
        with Session(HEAD[:1], log=self.path) as session:
            for it in names:
                session.register(it)
            session.send(names[-1], 1, 1, 7)
            session.shorten_log()
            session.forget(names[0])
        with Session.from_log(self.path) as session:
            self.assertEqual([session.last(it) for it in names[1:3]], [NOTHING] * 2)
            self.assertEqual(session.last(names[-1]), Last(1, 0, 0, None))
            with self.assertRaises(refusals.NotThere):
                session.last(names[0])

    def test_heads(self) -> None:
        # (`restore` is sent where the head says what there is)
        client = "client web 0 3 7 2 5 4 1:2:3:4"
        with Session(["numbers 9 0 1", "worker packer 1", client]) as session:
            self.assertEqual(session.last("web"), Last(3, 7, 2, Received(2, 5, 4, (1, 2, 3, 4))))
            dumped = session.dump().lines
        with Session(dumped) as session:
            self.assertEqual(session.dump().lines, dumped)


class ServeClients(unittest.TestCase):
    def test_a_session_that_is_lost(self) -> None:
        with tempfile.TemporaryDirectory() as folder:
            with Serving(HEAD, "--journal", f"{folder}/journal", folder=folder) as server:
                with connect(server.path) as session:
                    client = Client(session, "web")
                    for number in range(1, 4):
                        server.signal_session(signal.SIGSTOP)
                        threading.Timer(0.3, server.signal_session, [signal.SIGKILL]).start()
                        # the lost line is answered `unknown`, and sent again
                        self.assertEqual(client.send((number,)), Sent(number, number - 1))
                    work = session.claim("packer")
                    assert work
                    session.commit("packer", Draft(15, *work.words))
                    server.signal_session(signal.SIGSTOP)
                    threading.Timer(0.3, server.signal_session, [signal.SIGKILL]).start()
                    self.assertEqual(client.receive(), Received(1, 3, 0, (1, 0, 0, 0)))
                    self.assertEqual((client.sent, client.received), (3, 1))
                    self.assertEqual(session.count().waiting, 2)
                with connect(server.path) as session:
                    again = Client(session, "web")
                    self.assertEqual((again.sent, again.received), (3, 1))
                    self.assertEqual(again.receive_again(), Received(1, 3, 0, (1, 0, 0, 0)))

    def test_two_processes_of_one_name(self) -> None:
        with Serving(HEAD) as server, connect(server.path) as session:
            first = self.begun(server.path)
            self.assertEqual(self.told(first, 7), "sent 1\n")
            second = self.begun(server.path)
            for word, told in (8, "Fenced\n"), (9, "Fenced\n"):
                self.assertEqual(self.told(first, word), told)
            self.assertEqual(self.told(second, 10), "sent 2\n")
            self.assertEqual([session.read(it).words[0] for it in (0, 1)], [7, 10])
            self.assertEqual((session.count().waiting, session.last("web").sent), (2, 2))

    def begun(self, path: str) -> subprocess.Popen[str]:
        """Returns a process that is a client, once it knows what it has sent."""
        pipe = subprocess.PIPE
        command = [sys.executable, "-c", PROCESS, path]
        it = subprocess.Popen(command, stdin=pipe, stdout=pipe, text=True, bufsize=1)
        self.addCleanup(it.communicate)
        assert it.stdout
        self.assertEqual(it.stdout.readline(), "begun\n")
        return it

    def told(self, it: subprocess.Popen[str], word: int) -> str:
        """Has the process send an order, and returns what it was told."""
        assert it.stdin and it.stdout
        it.stdin.write(f"{word}\n")
        return it.stdout.readline()


if __name__ == "__main__":
    unittest.main()
