"""A server: each client has its own answers, and what one takes is bounded."""
from __future__ import annotations

import os
import random
import re
import signal
import stat
import subprocess
import threading
import time
import unittest

from covetrivet import program
from serving import SECONDS, Client, Serving, comes

WORKERS = tuple(f"worker {it} 1" for it in ("a", "b", "c", "d"))
COUNTED = "waiting 0 held 0 consumed 0 parked 0 killed 0"


class ServeAnswers(unittest.TestCase):
    def test_two_clients_that_interleave(self) -> None:
        with Serving(WORKERS) as server:
            clients = server.clients(2)
            ids: list[list[str]] = [[], []]
            for step in range(1, 60):
                # Both send before either reads, in pieces that grow.
                for key, it in enumerate(clients):
                    it.send(*[f"submit 1 {key} {step}"] * (step % 5 + 1), "# nothing", "")
                for key, it in enumerate(clients):
                    ids[key] += [it.line().split(" ")[1] for _ in range(step % 5 + 1)]
            self.assertEqual(len({*ids[0], *ids[1]}), len(ids[0]) + len(ids[1]))
            for key, it in enumerate(clients):
                looks = it.ask(*(f"read {element}" for element in ids[1 - key]))
                self.assertEqual({look.split(" ")[6] for look in looks}, {f"{1 - key}"})

    def test_a_dump_is_one_answer(self) -> None:
        with Serving(WORKERS) as server:
            one, two = server.clients(2)
            for _ in range(20):
                one.send("submit 1 5 5", "dump", "count")
                two.send("dump", "account")
                self.assertRegex(one.line(), r"submitted \d+")
                for it, last in (one, r"waiting \d+ held 0 .*"), (two, "account born .*"):
                    dumped = [it.line() for _ in range(int(it.line().removeprefix("dumped ")))]
                    self.assertEqual([line for line in dumped if line[:2] != "> "], [])
                    self.assertRegex(it.line(), last)

    def test_any_bytes(self) -> None:
        # Whatever a client sends, it is answered as by the program itself. The other one has its own answers.
        dice = random.Random(7)
        pieces: list[bytes] = []
        for byte in range(256):
            some = bytes([byte])
            lines = [some, some * 3, b"#" + some, b"# x" + some, b"count " + some, b" " + some, b" # x"]
            lines += [b"dump", b"dump" + some, b"submit 1 1 1" + some, b"restore", b"keep 8", b"claim a"]
            lines += [dice.randbytes(dice.choice((3, 1022, 1023, 1024, 1025))).replace(b"\n", b"")]
            dice.shuffle(lines)
            pieces.append(b"\n".join([*lines, b""]))
        head = WORKERS
        # (a server's session has had its first command)
        given = "\n".join([*head, "count", ""]).encode("ascii") + b"".join(pieces)
        alone = subprocess.run(program.find(), input=given, capture_output=True, check=True).stdout
        with Serving(head) as server:
            wild, tame = server.clients(2)
            said: list[str] = []
            drained = threading.Thread(target=lambda: said.extend(wild.rest()), daemon=True)
            drained.start()
            for byte, piece in enumerate(pieces):
                wild.socket.sendall(piece)
                refused, total = tame.ask("balance x 1", f"sum {byte % 64}")
                self.assertRegex(refused, r"^refused line \d+: 5 BadName$")
                self.assertEqual(total, f"sum {byte % 64} 0")
            wild.say_all()
            drained.join(SECONDS)
        # (which line is refused is counted by what the program is sent)
        unnumbered = [re.sub(r"line \d+", "line", it) for it in alone.decode("ascii").splitlines()[1:]]
        # (assertEqual would take minutes to show how long lists differ)
        self.assertTrue([re.sub(r"line \d+", "line", it) for it in said] == unnumbered)

    def test_lines_go_in_by_their_order(self) -> None:
        with Serving(WORKERS) as server:
            many = server.clients(20)
            for it in range(200):
                many[it % 20].send(f"submit 1 {it} 0")
                many[it % 20].line()
            looks = many[0].ask(*(f"read {it}" for it in range(200)))
            self.assertEqual([it.split(" ")[6] for it in looks], [f"{it}" for it in range(200)])

    def test_a_client_that_says_no_more(self) -> None:
        with Serving([]) as server:
            it = server.client()
            it.send(*["submit 1 5 5"] * 500)
            it.say_all()
            self.assertEqual(it.rest(), [f"submitted {at}" for at in range(500)])

    def test_one_that_says_no_more_before_it_is_answered(self) -> None:
        with Serving([]) as server:
            it = server.client()
            server.signal_session(signal.SIGSTOP)
            it.send("count")
            it.say_all()
            self.assertTrue(comes(lambda: server.counted("lines_in_flight") >= 1))
            server.signal_session(signal.SIGCONT)
            self.assertEqual(it.rest(), [COUNTED])

    def test_lines_that_come_in_pieces(self) -> None:
        with Serving([]) as server:
            it = server.client()
            whole, dice = b"submit 1 5 6\n# any\n\nread 0\n" * 200, random.Random(1)
            for _ in range(200):
                cut = dice.randint(0, 40)
                it.socket.sendall(whole[:cut])
                whole = whole[cut:]
                time.sleep(0.001)
            it.socket.sendall(whole)
            said = [it.line() for _ in range(400)]
            self.assertEqual(said[::2], [f"submitted {at}" for at in range(200)])
            self.assertEqual({look.split(" ")[0] for look in said[1::2]}, {"0"})

    def test_a_torn_last_line_is_not_performed(self) -> None:
        with Serving([]) as server:
            it = server.client()
            it.socket.sendall(b"count\nsubmit 1 5")
            it.say_all()
            said = [COUNTED, "covetrivet: the last line has no end, and was not performed"]
            self.assertEqual(it.rest(), said)
            self.assertEqual(server.client().ask("count"), [COUNTED])


class ServeBounds(unittest.TestCase):
    def test_a_line_that_is_too_long(self) -> None:
        refused = r"refused line \d+: 6 TooLong"
        with Serving([]) as server:
            it = server.client()
            for long in ("submit 1 5 " + "5" * 1013, "#" * 1024, " " * 1024, "x" * 1_000_000):
                said = it.ask(long, "count")
                self.assertRegex(said[0], refused)
                self.assertEqual(said[1], COUNTED)
            it.send("#" * 1023, " " * 1023, "count")
            self.assertEqual(it.line(), COUNTED)
            # It is refused once, also where it comes in pieces. The server doesn't keep it.
            before = server.memory()
            for _ in range(20):
                it.socket.sendall(b"y" * 1_000_000)
            self.assertLess(server.memory() - before, 5_000_000)
            self.assertRegex(it.ask("")[0], refused)
            self.assertEqual(it.ask("count"), [COUNTED])

    def test_lines_that_are_not_answered(self) -> None:
        with Serving([], "--lines", "7") as server:
            one, two = server.clients(2)
            server.signal_session(signal.SIGSTOP)
            one.send(*["submit 1 5 5"] * 1000)
            self.assertTrue(comes(lambda: server.counted("lines_in_flight") >= 7))
            two.send("submit 1 6 6")
            time.sleep(0.2)
            self.assertLess(server.counted("lines_in_flight"), 7 + 1 + 10)
            server.signal_session(signal.SIGCONT)
            # At most seven lines of the other were before its own.
            self.assertLessEqual(int(two.line().split(" ")[1]), 7)
            self.assertEqual(len([one.line() for _ in range(1000)]), 1000)

    def test_lines_are_shared(self) -> None:
        """Forty clients send a lot at once. Each has fewer lines with the program than one alone would."""
        with Serving([]) as server:
            clients = server.clients(40)
            server.signal_session(signal.SIGSTOP)
            for it in clients:
                it.send(*["submit 1 5 5"] * 100)
            self.assertTrue(comes(lambda: server.counted("lines_in_flight") >= 200))
            time.sleep(0.2)
            # (the first ones have up to 64, each later one its share of 512 among those before it)
            self.assertLess(server.counted("lines_in_flight"), 1500)
            server.signal_session(signal.SIGCONT)
            for it in clients:
                self.assertEqual(len([it.line() for _ in range(100)]), 100)

    def test_clients_have_turns(self) -> None:
        """Four send a lot, all before the server reads any of it. None waits until another one is done."""
        with Serving([]) as server:
            clients = server.clients(4)
            server.client().ask("count")
            server.signal(signal.SIGSTOP)
            for it in clients:
                # (comments count as lines do)
                it.send(*["# any", "submit 1 5 5"] * 32)
            server.signal(signal.SIGCONT)
            ids = [[int(it.line().split(" ")[1]) for _ in range(32)] for it in clients]
            self.assertLess(max(min(it) for it in ids), 32)
            runs = [sum(b - a != 1 for a, b in zip(it, it[1:])) for it in ids]
            self.assertGreaterEqual(min(runs), 2, ids)

    def test_a_slow_client_is_let_go(self) -> None:
        with Serving([], "--unread", "100000") as server:
            slow, other = server.clients(2)
            other.ask(*["submit 1 5 5"] * 2000)
            slow.send(*["dump"] * 60)
            self.assertTrue(comes(lambda: server.counted('let_go_total{why="unread"}') == 1))
            self.assertEqual(other.ask("count"), ["waiting 2000 held 0 consumed 0 parked 0 killed 0"])
            self.assertLess(len(slow.rest()), 60 * 2000)
            self.assertEqual(server.counted("connections"), 1)

    def test_a_client_that_reads_nothing_is_let_go(self) -> None:
        with Serving([], "--slow", "2") as server:
            stuck, other = server.clients(2)
            stuck.socket.settimeout(0.5)
            with self.assertRaises(TimeoutError):
                for _ in range(1000):
                    stuck.send(*["count"] * 1000)
            self.assertEqual(server.counted('let_go_total{why="slow"}'), 0)
            begun = time.monotonic()
            while server.counted("connections") == 2 and time.monotonic() < begun + 20:
                self.assertEqual(other.ask("count"), [COUNTED])
                time.sleep(0.01)
            self.assertEqual(server.counted('let_go_total{why="slow"}'), 1)

    def test_a_client_that_reads_slowly_stays(self) -> None:
        # It has far more answers to come than may be unread, and reads some of them each half a second, for
        # some six seconds: always more than the system keeps for it, so that the server sees it read.
        with Serving([], "--unread", "100000", "--slow", "2") as server:
            it = server.client()

            def send() -> None:
                # (one call of sendall has no longer than an answer may take)
                for _ in range(72):
                    it.send(*["count"] * 1000)

            sender = threading.Thread(target=send)
            sender.start()
            for _ in range(12):
                time.sleep(0.5)
                self.assertEqual({it.line() for _ in range(6000)}, {COUNTED})
            sender.join()

    def test_one_that_is_gone_takes_no_processor(self) -> None:
        # It has sent more than may be in flight, and reads none of the answers.
        with Serving([]) as server:
            server.signal_session(signal.SIGSTOP)
            with Client(server.path) as it:
                it.send(*["submit 1 5 5"] * 3000)
            self.assertTrue(comes(lambda: server.counted("lines_in_flight") >= 64))
            before = server.processor()
            time.sleep(1)
            self.assertLess(server.processor() - before, 0.3)
            server.signal_session(signal.SIGCONT)
            self.assertTrue(comes(lambda: server.counted("connections") == 0))
            # Of one that has sent comments alone, which wait as lines do, nothing is left either.
            others = server.clients(8)
            server.signal_session(signal.SIGSTOP)
            for other in others:
                other.send(*["count"] * 64)
            self.assertTrue(comes(lambda: server.counted("lines_in_flight") >= 512))
            with Client(server.path) as it:
                it.send(*["# any"] * 5000)
                time.sleep(0.3)
            time.sleep(0.1)
            server.signal_session(signal.SIGCONT)
            self.assertTrue(comes(lambda: server.counted("connections") == 8))

    def test_too_many_connections(self) -> None:
        with Serving([], "--connections", "3") as server:
            kept = server.clients(3)
            self.assertEqual([it.ask("count") for it in kept], [[COUNTED]] * 3)
            many = "covetrivet: 3 connections are open, which is all there may be"
            self.assertEqual(server.client().rest(), [many])
            kept.pop().close()
            self.assertTrue(comes(lambda: server.counted("connections") == 2))
            kept.append(server.client())
            self.assertEqual([it.ask("count") for it in kept], [[COUNTED]] * 3)
            # One that has ended makes room for the next one at once, also where both are heard of together.
            for _ in range(3):
                server.signal(signal.SIGSTOP)
                time.sleep(0.1)
                kept.pop(0).close()
                kept.append(server.client())
                server.signal(signal.SIGCONT)
                self.assertEqual(kept[-1].ask("count"), [COUNTED])

    def test_a_thousand_connections_of_which_fifty_are_stuck(self) -> None:
        with Serving([], "--connections", "1000") as server:
            clients = server.clients(1000)
            stuck, others = clients[:50], clients[50:]
            for it in stuck:
                it.socket.settimeout(0.01)
                with self.assertRaises(TimeoutError):
                    for _ in range(1000):
                        it.send(*["count"] * 500)
            for _ in range(3):
                for it in others:
                    it.send("count")
                self.assertEqual({it.line() for it in others}, {COUNTED})
            self.assertEqual(server.counted("connections"), 1000)

    def test_who_may_connect(self) -> None:
        for option, mode in ((), 0o600), (("--mode", "0660"), 0o660), (("--mode", "666"), 0o666):
            before = os.umask(0o027)
            try:
                with Serving([], *option) as server:
                    for path in (server.path, server.metrics):
                        self.assertEqual(stat.S_IMODE(os.stat(path).st_mode), mode)
            finally:
                os.umask(before)


if __name__ == "__main__":
    unittest.main()
