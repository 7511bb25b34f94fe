"""A server, from the other side: `covetrivet call` and `top`, its metrics, and `connect`."""
from __future__ import annotations

import os
import re
import shlex
import signal
import socket
import subprocess
import sys
import tempfile
import textwrap
import threading
import unittest
from pathlib import Path

from covetrivet import Client as CountingClient
from covetrivet import Disconnected, Draft, LogFault, SessionClosed, connect, refusals, submit
from serving import SECONDS, Client, Serving, comes

WORKER = ("worker packer 1", "worker other 1")
COMMAND = (sys.executable, "-m", "covetrivet")
PAGE = Path(__file__).resolve().parents[3] / "docs" / "SERVICE.md"


def run(*words: str, given: str = "") -> subprocess.CompletedProcess[str]:
    return subprocess.run(
        [*COMMAND, *words], input=given, capture_output=True, text=True, check=False, timeout=SECONDS
    )


class ServeCalls(unittest.TestCase):
    def test_lines(self) -> None:
        with Serving(WORKER) as server:
            said = run("call", "--socket", server.path, "submit 1 5 6", "# c", "", "nonsense", "dump")
            lines = said.stdout.splitlines()
            self.assertEqual((said.returncode, said.stderr, lines[0]), (0, "", "submitted 0"))
            self.assertRegex(lines[1], r"refused line \d+: 1 Syntax")
            self.assertEqual(lines[2], f"dumped {len(lines) - 3}")
            # The standard input's; the last one may lack its end.
            said = run("call", "--socket", server.path, given="claim packer\ncommit packer\ncount")
            self.assertEqual(said.stdout.splitlines()[2], "waiting 0 held 0 consumed 1 parked 0 killed 0")
            many = run("call", "--socket", server.path, given="count\n" * 30000)
            self.assertEqual((many.returncode, many.stdout.count("\n")), (0, 30000))

    def test_answers_come_at_once(self) -> None:
        pipe = subprocess.PIPE
        with Serving(WORKER) as server:
            words = [*COMMAND, "call", "--socket", server.path]
            with subprocess.Popen(words, stdin=pipe, stdout=pipe, text=True, bufsize=1) as it:
                if it.stdin and it.stdout:
                    for step in range(5):
                        it.stdin.write("submit 1 5 6\n")
                        self.assertEqual(it.stdout.readline(), f"submitted {step}\n")
                    it.stdin.close()
            self.assertEqual(it.returncode, 0)

    def test_it_ends_where_nobody_listens_any_more(self) -> None:
        pipe = subprocess.PIPE
        with Serving(WORKER) as server:
            words = [*COMMAND, "call", "--socket", server.path]
            # Its input stays open.
            ends = [subprocess.Popen(words, stdin=pipe, stdout=pipe, stderr=pipe) for _ in range(3)]
            for it in ends:
                if it.stdin and it.stdout:
                    it.stdin.write(b"count\n")
                    it.stdin.flush()
                    it.stdout.readline()
            ends[0].send_signal(signal.SIGINT)
            if ends[1].stdin and ends[1].stdout:
                ends[1].stdout.close()
                ends[1].stdin.write(b"count\n")
                ends[1].stdin.flush()
            self.assertEqual([ends[0].wait(SECONDS), ends[1].wait(SECONDS)], [130, 1])
            server.signal(signal.SIGTERM)
            self.assertEqual(ends[2].wait(SECONDS), 1)
        said = [it.stderr.read() if it.stderr else b"" for it in ends]
        self.assertEqual(said, [b"", b"", b"covetrivet: the server ends\n"])
        for it in ends:
            for stream in (it.stdin, it.stdout, it.stderr):
                if stream:
                    stream.close()

    def test_faults(self) -> None:
        for words, status in ((["count"], 64), (["--socket", "/nowhere/it", "count"], 69)):
            said = run("call", *words)
            self.assertEqual((said.returncode, said.stdout), (status, ""))
            self.assertNotIn("Traceback", said.stderr)
        with Serving(WORKER, "--connections", "1") as server:
            self.assertEqual(run("call", "--socket", server.path, "count\ncount").returncode, 64)
            with Client(server.path) as it:
                it.ask("count")
                said = run("call", "--socket", server.path, "count")
                self.assertEqual((said.returncode, said.stdout), (1, ""))
                self.assertIn("1 connections are open", said.stderr)

    def test_a_server_that_is_lost(self) -> None:
        for number in (signal.SIGKILL, signal.SIGTERM):
            with self.subTest(number), Serving(WORKER) as server:
                server.signal_session(signal.SIGSTOP)
                words = [*COMMAND, "call", "--socket", server.path, "count"]
                with subprocess.Popen(words, stdout=subprocess.PIPE, stderr=subprocess.PIPE) as it:
                    self.assertTrue(comes(lambda: server.counted("connections") == 1))
                    server.signal(number)
                    if number == signal.SIGTERM:
                        server.signal_session(signal.SIGKILL)
                    out, errors = it.communicate(timeout=SECONDS)
                self.assertEqual((it.returncode, out), (1, b""))
                self.assertIn(b"covetrivet: ", errors)

    def test_top(self) -> None:
        with Serving(WORKER) as server:
            with Client(server.path) as it:
                it.ask("submit 1 5 6", "submit 1 7 8", "claim packer", "nonsense")
                said = run("top", "--socket", server.path, "--metrics", server.metrics, "--once")
            self.assertEqual((said.returncode, said.stderr), (0, ""))
            self.assertEqual(said.stdout.split()[:4], ["waiting", "1", "held", "1"])
            self.assertRegex(said.stdout, r"\nstage +waiting +held +parked +oldest\n1 +1 +1 +0 +\d+\.\d s\n")
            self.assertRegex(said.stdout, r"(?m)^in hand for \d+\.\d s: packer$")
            self.assertRegex(said.stdout, r"(?m)^refused: Syntax 1$")
            with Client(server.path) as it:
                it.ask("count", "count")
                shows = "--metrics", server.metrics, "--once", "--clients"
                many = run("top", "--socket", server.path, *shows)
            who = rf"(?m)^client \d+ \(user:{os.getuid()} process:{os.getpid()}\): 2 lines, 0 in flight$"
            self.assertRegex(many.stdout, who)
            words = [*COMMAND, "top", "--socket", server.path, "--every", "0.1"]
            with subprocess.Popen(words, stdout=subprocess.PIPE, text=True) as again:
                if again.stdout:
                    shown = [again.stdout.readline().split() for _ in range(15)]
                again.send_signal(signal.SIGINT)
                self.assertEqual(again.wait(SECONDS), 0)
            self.assertEqual(shown[7], ["waiting", "1", "+0.0/s"])
        self.assertEqual(run("top", "--socket", server.path, "--once").returncode, 69)

    def test_metrics(self) -> None:
        with Serving(WORKER) as server:
            it = server.client()
            it.ask("submit 1 5 6", "claim packer", "claim packer", "claim nobody", "kill 9", "x" * 1300)
            it.ask("submit 12 5 6", "submit 12 5 6")
            it.ask("read 0")
            wanted = {'answers_total{command="claim"}': 3, 'answers_total{command="other"}': 1}
            refused = "Busy", "BadName", "NotThere", "TooLong"
            wanted |= {f'refusals_total{{why="{why}"}}': 1 for why in refused}
            wanted |= {'elements{status="held"}': 1, "connections": 1, "connections_total": 1}
            wanted["lines_in_flight"] = 0
            wanted['answers_total{command="read"}'] = 1
            for stage, state, many in (1, "held", 1), (12, "waiting", 2), (12, "parked", 0):
                wanted[f'stage_elements{{stage="{stage}",state="{state}"}}'] = many
            self.assertEqual({name: server.counted(name) for name in wanted}, wanted)
            self.assertGreater(server.counted("answer_seconds_sum"), 0)
            head, text = server.scraped()
            self.assertRegex(head, "^HTTP/1.0 200 OK\r\n")
            self.assertIn(f"Content-Length: {len(text)}", head)
            # A stage that had any is told where it has none, too.
            it.ask("cancel 1", "cancel 2")
            none = 'covetrivet_stage_elements{stage="12",state="waiting"} 0\n'
            self.assertIn(none, server.scraped()[1])
            about = r"# (HELP \w+ .*\.|TYPE \w+ (counter|gauge|histogram))"
            form = about + r"|\w+(\{\w+=\"[\w.+]+\"(,\w+=\"\w+\")*\})? [\d.]+"
            self.assertEqual([it for it in text.splitlines() if not re.fullmatch(form, it)], [])
            self.assertGreater(server.counted('unit_open_seconds{worker="packer"}'), 0)
            with Client(server.metrics) as other:
                other.socket.sendall(b"GET / HTTP/1.1\r\n\r\n")
                self.assertEqual(other.line(), "HTTP/1.0 404 Not Found\r")
            # Those that say nothing, or too much, are let go.
            idle = [Client(server.metrics) for _ in range(8)]
            with Client(server.metrics) as other:
                self.assertEqual(other.rest(), [])
            idle[0].socket.sendall(b"x" * 10000)
            self.assertEqual(idle[0].rest(), [])
            self.assertEqual(server.counted("connections"), 1)
            for silent in idle:
                self.assertEqual(silent.rest(), [])
                silent.close()


class ServeSessions(unittest.TestCase):
    def test_calls(self) -> None:
        with Serving(WORKER) as server, connect(server.path) as one, connect(Path(server.path)) as two:
            order = one.submit(1, 5, 6).element
            work = two.claim("packer")
            if work is None:
                self.fail("nothing waits")
            self.assertEqual((work.element, work.words), (order, (5, 6, 0, 0)))
            with self.assertRaises(refusals.Busy) as busy:
                one.account()
            self.assertEqual(busy.exception.command, "account")
            self.assertEqual(one.commit("packer", Draft(15, 5)).unit, work.unit)
            self.assertEqual([it.words[0] for it in two.collect(order)], [5])
            with one.batch() as batch:
                asked = [batch.add(submit(1, it)) for it in range(700)]
            self.assertEqual(two.read(asked[-1].value.element).words[0], 699)
            # (four settings, two workers, how the packer's last unit ended, an order and its reply, that they
            # are over, two of what is settled, and the end)
            self.assertEqual(len(two.dump().lines), 700 + 13)
            with self.assertRaises(LogFault):
                one.shorten_log()
            with self.assertRaises(SessionClosed):
                print(one.process)
        self.assertEqual(one.finals, {})

    def test_threads_of_many(self) -> None:
        told: dict[int, int] = {}

        def order(key: int) -> None:
            with connect(server.path) as session:
                for it in range(key, key + 100):
                    told[it] = session.submit(1, it).element

        with Serving(WORKER) as server:
            threads = [threading.Thread(target=order, args=(it * 100,)) for it in range(8)]
            for it in threads:
                it.start()
            for it in threads:
                it.join(SECONDS)
            with connect(server.path) as session:
                self.assertEqual([key for key, it in told.items() if session.read(it).words[0] != key], [])
            self.assertEqual(len({*told.values()}), 800)

    def test_no_server(self) -> None:
        with self.assertRaises(Disconnected) as none, connect("/nowhere/it"):
            pass
        self.assertIsInstance(none.exception, OSError)
        with Serving(WORKER, "--connections", "1") as server, connect(server.path):
            with self.assertRaises(Disconnected) as caught, connect(server.path):
                pass
            self.assertIn("1 connections are open", str(caught.exception))

    def test_a_server_that_ends(self) -> None:
        with Serving(WORKER) as server, connect(server.path) as session:
            server.signal(signal.SIGTERM)
            self.assertEqual(server.end()[0], 0)
            with self.assertRaises(Disconnected) as caught:
                session.count()
            self.assertEqual(str(caught.exception), "the server ends")
            with self.assertRaises(Disconnected):
                session.count()
        with Serving(WORKER) as server, connect(server.path, seconds=0.3) as session:
            server.signal_session(signal.SIGSTOP)
            with self.assertRaises(TimeoutError):
                session.submit(1, 5)
            server.signal_session(signal.SIGCONT)
            # (a line that waits has as many seconds more)
            self.assertIsNone(session.claim("other", wait=1) if session.claim("packer") else 0)

    def test_lines_that_wait(self) -> None:
        with Serving([*WORKER, "register shop"]) as server, connect(server.path) as session:
            client = CountingClient(session, "shop")
            threading.Timer(0.3, client.send, [(5,)]).start()
            work = session.claim("packer", wait=20)
            assert work
            threading.Timer(0.3, work.commit, [Draft(15, 7)]).start()
            reply = client.receive(note="page-1", wait=20)
            assert reply
            self.assertEqual((work.words[0], reply.words[0], client.last().note), (5, 7, "page-1"))
            self.assertIsNone(session.claim_next("packer", wait=0))
            # (a time limit counts behind it)
            with connect(server.path, seconds=2) as hasty:
                self.assertIsNone(hasty.claim("packer", wait=3))
            with self.assertRaises(TypeError):
                session.claim("packer", wait=0.5)  # type: ignore[arg-type]

    def test_tokens(self) -> None:
        with tempfile.TemporaryDirectory() as folder:
            tokens = Path(folder, "tokens")
            tokens.touch(0o600)
            tokens.write_text("till s3cret\n", encoding="ascii")
            rights = Path(folder, "rights")
            rights.write_text("token:till submit,count * *\ntoken:till version - -\n", encoding="ascii")
            with Serving(WORKER, "--tokens", str(tokens), "--rights", str(rights)) as server:
                with connect(server.path, token="s3cret") as session:
                    self.assertEqual(session.submit(1, 5).element, 0)
                    with self.assertRaises(refusals.Denied):
                        session.claim("packer")
                with self.assertRaises(refusals.Denied) as denied, connect(server.path, token="guess"):
                    pass
                self.assertNotIn("guess", str(denied.exception))
                for wrong in ("", "two words", "two\nlines"):
                    with self.assertRaises(ValueError), connect(server.path, token=wrong):
                        pass

    def test_the_one_of_several_that_answers(self) -> None:
        with Serving(WORKER) as server, socket.socket(socket.AF_UNIX) as follower:
            follower.bind(f"{server.folder}/follower")
            follower.listen()

            def follow() -> None:
                with follower.accept()[0] as it:
                    it.sendall(b"covetrivet: this node follows: n2 leads\n")

            for others in (list[str](), [server.path]):
                thread = threading.Thread(target=follow)
                thread.start()
                paths = [f"{server.folder}/follower", "/nowhere/it", *others]
                if others:
                    with connect(paths) as session:
                        self.assertEqual(session.count().waiting, 0)
                else:
                    with self.assertRaises(Disconnected) as caught, connect(paths):
                        pass
                    for said in ("follower: this node follows: n2 leads", "/nowhere/it: no server"):
                        self.assertIn(said, str(caught.exception))
                thread.join(SECONDS)
        with self.assertRaises(ValueError):
            connect([])

    def test_an_answer_before_the_end(self) -> None:
        # It is told where both come at once, and the end by the next call.
        with tempfile.TemporaryDirectory() as folder, socket.socket(socket.AF_UNIX) as listener:
            listener.bind(f"{folder}/socket")
            listener.listen()

            def serve() -> None:
                it, _ = listener.accept()
                with it:
                    for answer in "version 1 lines 2", "waiting 0", "submitted 7\ncovetrivet: it ends":
                        tag = it.recv(100).split(b" ")[0]
                        it.sendall(tag + f" {answer}\n".encode("ascii"))

            server = threading.Thread(target=serve)
            server.start()
            with connect(f"{folder}/socket") as session:
                self.assertEqual(session.submit(1, 5).element, 7)
                with self.assertRaises(Disconnected) as caught:
                    session.count()
                self.assertEqual(str(caught.exception), "it ends")
            server.join(SECONDS)


class ServePage(unittest.TestCase):
    def test_what_the_page_shows(self) -> None:
        page = PAGE.read_text(encoding="utf-8")
        head = re.search(r"(?m)^    # shop\.head\n((?:    .*\n)+)", page)
        calls = re.findall(r"(?m)^    \$ covetrivet (.*)\n((?:    [^$\n].*\n)*)", page)
        if not head or len(calls) < 3:
            self.fail("the page shows no server")
        with tempfile.TemporaryDirectory() as folder:
            lines = textwrap.dedent(head[1]).splitlines()
            with Serving(lines, folder=folder) as server:
                for words, answers in calls:
                    words = words.replace("shop.sock", server.path).replace("shop.metrics", server.metrics)
                    said = run(*shlex.split(words))
                    shown = re.sub(r"\d+ us", "N us", re.sub(r" +[\d.]+ s$", " N s", said.stdout, flags=re.M))
                    answers = re.sub(r" +N s$", " N s", textwrap.dedent(answers), flags=re.M)
                    self.assertEqual(shown, answers, words)
                    self.assertEqual(said.returncode, 0)
                shown = "".join(re.findall(r"(?m)^    (import covetrivet\n(?:(?:    .*)?\n)+)", page))
                self.assertTrue(shown)
                exec(textwrap.dedent("    " + shown).replace("shop.sock", server.path), {})


if __name__ == "__main__":
    unittest.main()
