"""A node with its server: whom it answers, and what becomes of clients and their units when another node
leads. The log is in the memory of this process.
"""
from __future__ import annotations

import contextlib
import os
import signal
import subprocess
import sys
import tempfile
import time
import unittest
from unittest import mock

import memory_log
from covetrivet import Disconnected, connect, program
from covetrivet.shared_log import Record
from memory_log import Store
from machines import children
from serving import SECONDS, Client, comes

HEAD = ["worker wa 1", "worker wb 1"]
COUNTED = "waiting 1 held 0 consumed 0 parked 0 killed 0"
SEVEN = "1 stage 1 root 1 key 7 amount 7 by client waiting 0"
NO_MORE = "covetrivet: this node leads no more; what wasn't answered may have been done"


class Nodes:
    """Two nodes, in a `with` block. The second one leads only once it is told to."""

    def __init__(self, *options: str) -> None:
        self.stack = contextlib.ExitStack()
        self.folder = self.stack.enter_context(tempfile.TemporaryDirectory())
        self.options = options
        self.store = Store()
        self.store.only = "n1"
        self.paths = [f"{self.folder}/n1", f"{self.folder}/n2"]
        self.port = memory_log.shared(self.store)

    def __enter__(self) -> Nodes:
        self.processes = [self.begun(it) for it in ("n1", "n2")]
        return self

    def __exit__(self, *fault: object) -> None:
        self.stack.close()

    def begun(self, who: str) -> subprocess.Popen[bytes]:
        """Returns a node's process."""
        words = [*program.find_server(), "--node", "--socket", f"{self.folder}/{who}", *self.options]
        words += ["--metrics", f"{self.folder}/{who}.pages", "--"]
        words += [sys.executable, memory_log.__file__, str(self.port), who, *HEAD]
        with open(f"{self.folder}/{who}.said", "wb") as said, open(f"{self.folder}/{who}.out", "wb") as out:
            it = subprocess.Popen(words, stdout=out, stderr=said)
        self.stack.callback(self.ended, it)
        return it

    def ended(self, it: subprocess.Popen[bytes]) -> None:
        for process in [*children(it.pid), it.pid]:
            with contextlib.suppress(ProcessLookupError):
                os.kill(process, signal.SIGKILL)
        it.wait()

    def said(self, at: int) -> str:
        with open(f"{self.paths[at]}.said", encoding="utf-8") as said:
            return said.read()

    def page(self, at: int, name: str) -> str:
        """Returns a page of a node, with its status."""
        with Client(f"{self.paths[at]}.pages") as it:
            it.socket.sendall(f"GET /{name} HTTP/1.0\r\n\r\n".encode("ascii"))
            head, _, text = it.reader.read().decode("ascii").partition("\r\n\r\n")
        return f"{head.split(' ')[1]} {text}"

    def tells(self, at: int, text: str, name: str = "healthz") -> None:
        """Waits until this stands in a page of a node."""
        told = ""

        def is_told() -> bool:
            nonlocal told
            with contextlib.suppress(OSError):
                told = self.page(at, name)
            return text in told

        if not comes(is_told):
            raise AssertionError(f"{text!r} isn't in {told!r}; {self.said(at)}")

    def leads(self, at: int) -> Client:
        """Waits until this node leads, and returns a client of it."""
        self.tells(at, "this node leads")
        return self.stack.enter_context(Client(self.paths[at]))

    def client(self, at: int) -> Client:
        return self.stack.enter_context(Client(self.paths[at]))

    def node_of(self, at: int) -> int:
        """Returns the process that is a server's node."""
        return children(self.processes[at].pid)[0]

    def session_of(self, at: int) -> int:
        return children(self.node_of(at))[0]


class NodeServers(unittest.TestCase):
    def test_who_is_answered(self) -> None:
        with Nodes() as nodes:
            it = nodes.leads(0)
            nodes.tells(1, "n1 leads")
            other = nodes.client(1)
            self.assertEqual(it.ask("submit 1 5 6", "# no answer\ncount"), ["submitted 0", COUNTED])
            asked = "@a count", "@b # none", "count", "@c", "@d " + "x" * 1021, "@dump dump"
            told = it.ask(*asked)
            self.assertEqual(told[:4], [f"@a {COUNTED}", "@b", COUNTED, "@c"])
            self.assertRegex(told[4], r"^@d refused line \d+: 6 TooLong$")
            more = int(told[5].removeprefix("@dump dumped "))
            self.assertTrue(all(it.line().startswith("@dump > ") for _ in range(more)))
            with connect([nodes.paths[1], nodes.paths[0]]) as session:
                self.assertEqual(session.count().waiting, 1)
            with self.assertRaisesRegex(Disconnected, "^this node follows: n1 leads$"):
                connect(nodes.paths[1]).__enter__()
            other.send("submit 1 7 7")
            self.assertEqual(other.rest(), ["covetrivet: this node follows: n1 leads"])

    def test_lines_that_could_be_the_servers_own(self) -> None:
        # No client begins a term, or answers for the node, whatever bytes it sends.
        with Nodes() as nodes:
            it = nodes.leads(0)
            term = nodes.store.term
            long = f"# leads {term + 1}".ljust(1100)
            for line in f"# leads {term + 1}\t", "# count\x01", long, "\x01told it", "\x01follows me":
                self.assertRegex(it.ask(line)[0], r"^refused line \d+: (1 Syntax|6 TooLong)$")
            it.send(f"# leads {term + 1}", "# count", "# place")
            self.assertEqual(it.ask("@x count"), ["@x waiting 0 held 0 consumed 0 parked 0 killed 0"])
            self.assertIn("covetrivet_leads 1\n", nodes.page(0, "metrics"))

    def test_many_lines_are_few_records(self) -> None:
        with Nodes("--lines", "500") as nodes:
            it = nodes.leads(0)
            it.send(*["read 0"] * 5000)
            self.assertEqual({it.line() for _ in range(5000)}, {"refused 4 NotThere"})
            self.assertEqual(sum(len(record.lines) for record in nodes.store.records.values()), 5000)
            self.assertLess(len(nodes.store.records), 200)

    def test_clients_of_a_leader_that_is_none_any_more(self) -> None:
        with Nodes() as nodes:
            it, silent, waiting = nodes.leads(0), nodes.client(0), nodes.client(0)
            it.ask("submit 1 5 6", "claim wa")
            waiting.send("claim wb wait 100")
            self.assertTrue(comes(lambda: len(nodes.store.records) == 2))
            nodes.store.has_lead("n2")
            it.send("commit wa 15:1:2")
            for client in it, silent, waiting:
                self.assertEqual(client.rest(), [NO_MORE])
            nodes.tells(0, "this node follows: n2 leads")
            other = nodes.leads(1)
            self.assertEqual(other.ask("commit wa 15:1:2"), ["wa done 0 unit 0 outputs 1 1"])
            self.assertIn("leads from place 0", nodes.said(0))
            self.assertIn("leads no more: another node leads", nodes.said(0))

    def test_one_that_leads_again(self) -> None:
        """What was sent in an earlier term is performed no more, and answers are those of the new lines."""
        with Nodes() as nodes:
            it = nodes.leads(0)
            self.assertEqual(it.ask("submit 1 5 6"), ["submitted 0"])
            os.kill(nodes.session_of(0), signal.SIGSTOP)
            # (the first of these is under way when another one comes to lead, and the others wait behind it)
            it.send(*["submit 1 7 7"] * 30)
            self.assertTrue(comes(lambda: len(nodes.store.records) > 1))
            before = sum(len(record.lines) for record in nodes.store.records.values())
            it.send(*["submit 1 8 8"] * 30)
            time.sleep(0.3)
            nodes.store.next_term("n2")
            os.kill(nodes.session_of(0), signal.SIGCONT)
            told = it.rest()
            self.assertEqual(told, [*(f"submitted {at}" for at in range(1, before)), NO_MORE])
            nodes.store.next_term(None)
            again = nodes.leads(0)
            self.assertEqual(again.ask("submit 1 9 9", "read 1"), [f"submitted {before}", SEVEN])
            self.assertEqual(sum(len(record.lines) for record in nodes.store.records.values()), before + 2)

    def test_units_of_clients_of_an_earlier_leader(self) -> None:
        with Nodes("--orphans", "abort:2") as nodes:
            nodes.leads(0).ask("submit 1 5 6", "submit 1 7 8", "claim wa", "claim wb")
            nodes.store.has_lead("n2")
            it = nodes.leads(1)
            # One comes back in time, and the other one's is aborted.
            self.assertEqual(it.ask("commit wb"), ["wb done 1 unit 1 outputs 2 0"])
            nodes.tells(1, "covetrivet_orphans_aborted_total 1\n", "metrics")
            self.assertRegex(it.ask("claim wb")[0], "wb work 0 unit 2 attempt 2 ")

    def test_lines_that_wait(self) -> None:
        with Nodes() as nodes:
            nodes.leads(0).ask("worker late 2")
            nodes.store.has_lead("n2")
            it, other, third = nodes.leads(1), nodes.client(1), nodes.client(1)
            # The new leader knows who takes from where: those of one stage are tried, one after the other.
            it.send("claim wa wait 60")
            other.send("claim wb wait 60")
            third.send("claim late wait 60")
            nodes.tells(1, "covetrivet_lines_waiting 3\n", "metrics")
            nodes.client(1).ask("submit 1 5 6")
            self.assertRegex(it.line(), "^wa work 0 ")
            nodes.tells(1, "covetrivet_wait_tries_total 2\n", "metrics")

    def test_lines_that_are_tried_are_nobodys(self) -> None:
        """Nobody waits behind one that was being tried when the node was deposed."""
        with Nodes() as nodes:
            it, other = nodes.leads(0), nodes.client(0)
            os.kill(nodes.session_of(0), signal.SIGSTOP)
            other.send("count")
            self.assertTrue(comes(lambda: len(nodes.store.records) == 1))
            it.send("claim wa wait 60")
            nodes.tells(0, "covetrivet_lines_waiting 1\n", "metrics")
            nodes.store.next_term("n2")
            os.kill(nodes.session_of(0), signal.SIGCONT)
            self.assertEqual(it.rest(), [NO_MORE])
            nodes.store.next_term(None)
            again = nodes.leads(0)
            self.assertEqual(again.ask("submit 1 5 6"), ["submitted 0"])
            self.assertRegex(again.ask("claim wb wait 60")[0], "^wb work 0 ")

    def test_rights_and_tokens(self) -> None:
        with tempfile.TemporaryDirectory() as folder:
            for name, text in ("rights", "any count - -\ntoken:app submit * 1"), ("tokens", "app s3cret\n"):
                with open(os.open(f"{folder}/{name}", os.O_CREAT | os.O_WRONLY, 0o600), "w") as file:
                    file.write(text)
            options = "--rights", f"{folder}/rights", "--tokens", f"{folder}/tokens"
            with Nodes(*options) as nodes:
                it = nodes.leads(0)
                denied, none = "refused 18 Denied", "waiting 0 held 0 consumed 0 parked 0 killed 0"
                self.assertEqual(it.ask("submit 1 5 6", "count"), [denied, none])
                said = it.ask("token s3cret", "submit 1 5 6", "submit 2 5 6")
                self.assertEqual(said, ["token app", "submitted 0", denied])
                performed = [line for record in nodes.store.records.values() for line in record.lines]
                self.assertEqual(performed, ["count", "submit 1 5 6"])

    def test_pages(self) -> None:
        with Nodes() as nodes:
            nodes.leads(0).ask("submit 1 5 6")
            nodes.tells(1, "n1 leads")
            nodes.tells(1, "covetrivet_place 1\n", "metrics")
            for at, leads, term in (0, 1, nodes.store.term), (1, 0, 0):
                told = nodes.page(at, "metrics").splitlines()
                wanted = {f"covetrivet_leads {leads}", f"covetrivet_term {term}", "covetrivet_place 1"}
                wanted.add('covetrivet_elements{status="waiting"} 1')
                wanted.add('covetrivet_stage_elements{stage="1",state="waiting"} 1')
                self.assertEqual(wanted - set(told), set())
                self.assertEqual(len([it for it in told if it.startswith("covetrivet_stage_oldest_")]), 1)
            # (no record was made for them)
            self.assertEqual(len(nodes.store.records), 1)
            both = [[nodes.page(at, name) for name in ("healthz", "ready")] for at in (0, 1)]
            follows = "this node follows: n1 leads\n"
            self.assertEqual(both[0], ["200 this node leads\n", "200 ok\n"])
            self.assertEqual(both[1], [f"200 {follows}", f"503 {follows}"])

    def test_a_log_that_is_full(self) -> None:
        with Nodes() as nodes:
            it = nodes.leads(0)
            self.assertEqual(it.ask("submit 1 5 6"), ["submitted 0"])
            # (no answer comes to this one, and then the log is full)
            nodes.store.is_full = True
            nodes.store.doubts.append(False)
            it.send("submit 1 7 7")
            self.assertEqual(it.rest(), [NO_MORE])
            full = "this node follows: nobody can lead, since the log has no room"
            nodes.tells(0, full)
            self.assertEqual(nodes.client(0).rest(), [f"covetrivet: {full}"])
            nodes.store.is_full = False
            self.assertEqual(nodes.leads(0).ask("submit 1 7 7"), ["submitted 1"])


class NodeEnds(unittest.TestCase):
    def end(self, nodes: Nodes, at: int = 0) -> tuple[int, str]:
        """Waits for a node's end. Returns its exit status, and what it wrote last on standard error."""
        status = nodes.processes[at].wait(SECONDS)
        return status, nodes.said(at).splitlines()[-1]

    def test_in_order(self) -> None:
        with Nodes() as nodes:
            it = nodes.leads(0)
            self.assertEqual(it.ask("submit 1 5 6"), ["submitted 0"])
            nodes.store.only = None
            nodes.processes[0].send_signal(signal.SIGTERM)
            self.assertEqual(it.rest(), ["covetrivet: the server ends"])
            status, said = self.end(nodes)
            self.assertEqual(status, 0)
            self.assertRegex(said, r"^covetrivet: ends at place 1, digest [0-9a-f]{32}$")
            self.assertEqual(nodes.leads(1).ask("submit 1 5 6"), ["submitted 1"])
            self.assertEqual(os.path.getsize(f"{nodes.paths[0]}.out"), 0)

    def test_the_server_is_killed(self) -> None:
        with Nodes() as nodes:
            nodes.leads(0).ask("submit 1 5 6")
            nodes.store.only = None
            nodes.processes[0].kill()
            self.assertEqual(nodes.leads(1).ask("submit 1 5 6"), ["submitted 1"])

    def test_its_session_is_killed(self) -> None:
        with Nodes() as nodes:
            it = nodes.leads(0)
            self.assertEqual(it.ask("submit 1 5 6"), ["submitted 0"])
            nodes.store.only = None
            os.kill(nodes.session_of(0), signal.SIGKILL)
            it.send("count")
            self.assertRegex(it.rest()[-1], "^covetrivet: the session is lost: this node ends: .*SIGKILL")
            self.assertEqual(self.end(nodes)[0], 1)
            self.assertEqual(nodes.leads(1).ask("read 0")[0].split()[0], "0")

    def test_the_node_is_killed(self) -> None:
        with Nodes() as nodes:
            it = nodes.leads(0)
            session = nodes.session_of(0)
            os.kill(nodes.node_of(0), signal.SIGKILL)
            self.assertRegex(it.rest()[-1], "^covetrivet: the session is lost: the program ended by signal 9")
            self.assertEqual(self.end(nodes)[0], 1)
            self.assertTrue(comes(lambda: not os.path.exists(f"/proc/{session}")))

    def test_answers_that_differ(self) -> None:
        with Nodes() as nodes:
            it = nodes.leads(0)
            nodes.store.next_term("n3")
            nodes.store.records = {0: Record("n3", "", ["count"]), 1: Record("n3", "0" * 32, ["count"])}
            it.send("count")
            for at in 0, 1:
                status, said = self.end(nodes, at)
                self.assertEqual(status, 1)
                self.assertRegex(said, "^covetrivet: this node ends: at record 1 of n3 the answers of ")

    def test_a_head_that_is_refused(self) -> None:
        with mock.patch(f"{__name__}.HEAD", ["worker wa 1", "worker wa 2"]), Nodes() as nodes:
            status, said = self.end(nodes)
            self.assertEqual(status, 65)
            self.assertRegex(said, "^covetrivet: this node ends: the session can't begin: ")
            self.assertIsNone(nodes.store.holder)


if __name__ == "__main__":
    unittest.main()
