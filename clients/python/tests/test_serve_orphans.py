"""A server that goes on from a journal: it knows which units are open, and aborts those of who is gone."""
from __future__ import annotations

import os
import signal
import tempfile
import unittest
from unittest import mock

from covetrivet import program
from serving import Client, Serving, comes

HEAD = ("limit 7", "server till eager 2 1 add", "worker packer 1", "worker other 1")


class ServeOrphansAgain(unittest.TestCase):
    def setUp(self) -> None:
        folder = tempfile.TemporaryDirectory()
        self.addCleanup(folder.cleanup)
        self.folder = folder.name

    def server(self, *options: str) -> Serving:
        return Serving(HEAD, "--journal", f"{self.folder}/journal", *options, folder=self.folder)

    def leave_work(self, *lines: str) -> None:
        """A server that is killed behind these lines."""
        with self.server() as server:
            server.client().ask(*lines)
            server.signal(signal.SIGKILL)
            server.end()

    def test_units_that_a_journal_leaves_open(self) -> None:
        # A worker has one, a server's desk another, and a third one has lost its own.
        names = "packer", "other", "till"
        submits = "submit 1 5 5", "submit 1 6 6", "submit 2 7 7"
        self.leave_work(*submits, *(f"claim {it}" for it in names), "kill 1")
        with self.server("--orphans", "abort:0.5") as server:
            it = server.client()
            seconds = [server.counted(f'unit_open_seconds{{worker="{name}"}}') for name in names]
            self.assertTrue(all(seconds), seconds)
            # One comes back in time.
            self.assertRegex(it.ask("commit packer")[0], "packer done 0 ")
            self.assertEqual(it.ask("claim other", "claim till"), ["other busy", "till busy"])
            self.assertTrue(comes(lambda: server.counted("orphans_aborted_total") == 2))
            self.assertEqual(it.ask("claim other"), ["other idle"])
            self.assertRegex(it.ask("claim till")[0], "till work 2 unit .* attempt 2")

    def test_they_are_kept(self) -> None:
        self.leave_work("submit 1 5 5", "claim packer")
        with self.server() as server:
            self.assertGreater(server.counted('unit_open_seconds{worker="packer"}'), 0)
            self.assertEqual(server.client().ask("claim packer", "count")[0], "packer busy")
            self.assertEqual(server.counted("orphans_aborted_total"), 0)

    def test_nothing_is_open(self) -> None:
        # What is asked at the start changes nothing, and takes nothing up.
        self.leave_work("submit 1 5 5", "submit 1 6 6", "claim packer", "commit packer")
        with self.server("--orphans", "abort:0") as server:
            said = server.client().ask("count", "claim packer")
            self.assertEqual(said[0], "waiting 1 held 0 consumed 1 parked 0 killed 0")
            self.assertRegex(said[1], "packer work 1 unit .* attempt 1")
            self.assertEqual(server.counted("orphans_aborted_total"), 0)

    def test_commands_of_a_head(self) -> None:
        with Serving([*HEAD, "submit 1 5 5", "claim packer"], "--orphans", "abort:0") as server:
            self.assertTrue(comes(lambda: server.counted("orphans_aborted_total") == 1))
            self.assertRegex(server.client().ask("claim other")[0], "other work 0 unit .* attempt 2")

    def muted(self) -> str:
        """Returns a program that performs its lines, and tells two answers alone where a file is there."""
        name, found = f"{self.folder}/muted", " ".join(program.find())
        with open(name, "w", encoding="ascii") as file:
            file.write(f'#!/bin/sh\n[ -e {self.folder}/mute ] || exec {found} "$@"\n')
            file.write(f'rm {self.folder}/mute\n{found} "$@" | {{ sed -u 2q; sleep 100; }}\n')
        os.chmod(name, 0o755)
        return name

    def claim_unanswered(self, server: Serving, it: Client) -> None:
        """A claim that is in the journal, of which no answer is told: its process is killed."""
        it.send("claim packer")
        self.assertTrue(comes(lambda: b"claim packer\n" in self.journal()))
        with open(f"{self.folder}/pid", encoding="ascii") as file:
            os.killpg(int(file.read()), signal.SIGKILL)
        self.assertEqual(it.line(), "unknown")

    def journal(self) -> bytes:
        with open(f"{self.folder}/journal", "rb") as file:
            return file.read()

    def test_a_claim_whose_answer_was_lost(self) -> None:
        self.leave_work("submit 1 5 5")
        with mock.patch.dict(os.environ, {program.VARIABLE: self.muted()}):
            with open(f"{self.folder}/mute", "w", encoding="ascii"):
                pass
            with self.server("--orphans", "abort:0.2") as server:
                other = server.client()
                with server.client() as it:
                    # (recovered, and who has units open)
                    self.claim_unanswered(server, it)
                    # It is the client's unit while that is there.
                    self.assertEqual(other.ask("claim packer", "claim other"), ["packer busy", "other idle"])
                    self.assertEqual(server.counted("orphans_aborted_total"), 0)
                self.assertTrue(comes(lambda: server.counted("orphans_aborted_total") == 1))
                self.assertRegex(other.ask("claim other")[0], "other work 0 unit .* attempt 2")

    def test_an_abort_whose_answer_was_lost(self) -> None:
        # The server's own abort is sent again where it wasn't performed.
        self.leave_work("submit 1 5 5", "claim packer")
        with self.server("--orphans", "abort:0.4") as server:
            server.signal_session(signal.SIGSTOP)
            self.assertTrue(comes(lambda: server.counted("lines_in_flight") >= 1))
            server.signal_session(signal.SIGKILL)
            self.assertTrue(comes(lambda: server.counted("orphans_aborted_total") == 1))
            self.assertRegex(server.client().ask("claim other")[0], "other work 0 unit .* attempt 2")

    def test_a_start_that_is_killed(self) -> None:
        # The process that is to go on ends too, once.
        name, found = f"{self.folder}/once", " ".join(program.find())
        with open(name, "w", encoding="ascii") as file:
            dies = f"[ ! -e {self.folder}/dying ] || {{ rm {self.folder}/dying; kill -9 $$; }}"
            file.write(f'#!/bin/sh\n{dies}\nexec {found} "$@"\n')
        os.chmod(name, 0o755)
        with mock.patch.dict(os.environ, {program.VARIABLE: name}), self.server() as server:
            it = server.client()
            self.assertEqual(it.ask("submit 1 5 6"), ["submitted 0"])
            with open(f"{self.folder}/dying", "w", encoding="ascii"):
                pass
            server.signal_session(signal.SIGKILL)
            self.assertTrue(comes(lambda: server.counted("session_restarts_total") == 1))
            self.assertEqual(it.ask("submit 1 5 6"), ["submitted 1"])


if __name__ == "__main__":
    unittest.main()
