"""Sessions with a log, whose client or program is lost."""
from __future__ import annotations

import os
import signal
import subprocess
import sys
import tempfile
import unittest
from pathlib import Path

from covetrivet import (
    Command, Counts, Depth, Draft, LogFault, NoProgram, Session, SessionBroken, SessionEnded, refusals,
)  # fmt: skip

FIRST = "# covetrivet log 2"
HEAD = ["worker clerk 1"]


class Logs(unittest.TestCase):
    def setUp(self) -> None:
        folder = tempfile.TemporaryDirectory()
        self.addCleanup(folder.cleanup)
        self.path = f"{folder.name}/orders.log"

    def lines(self) -> list[str]:
        return Path(self.path).read_text(encoding="ascii").splitlines()

    def lost(self, session: Session) -> None:
        """Has the program be killed, as with its machine's power."""
        session.process.kill()
        with self.assertRaises(SessionEnded):
            session.count()

    def test_a_session_goes_on(self) -> None:
        with Session(HEAD, log=self.path) as session:
            for customer in range(4):
                session.submit(1, customer, 10)
            session.claim("clerk")
            session.commit("clerk", Draft(15, 0, 1))
            session.claim("clerk")
            self.lost(session)
        wanted = [FIRST, *HEAD, "count", "submit 1 0 10", "submit 1 1 10", "submit 1 2 10", "submit 1 3 10"]
        wanted += ["claim clerk", "commit clerk 15:0:1:0:0", "claim clerk"]
        for _life in range(3):
            self.assertEqual(self.lines(), wanted)
            with Session.from_log(self.path) as session:
                # Order 1 is in hand, as it was: 2 and 3 wait, and the reply.
                self.assertEqual(session.count(), Counts(3, 1, 1, 0, 0))
                self.assertEqual(session.depth(), (Depth(1, 2, 1, 0), Depth(15, 1, 0, 0)))
                self.assertEqual(session.waiting(1), (2, 3))
                with self.assertRaises(refusals.Busy):
                    session.claim("clerk")
                self.lost(session)
            wanted.append("claim clerk")

    def test_a_client_is_killed(self) -> None:
        # Each order that the killed client was told of is there once behind it.
        child = (
            "import sys\nfrom covetrivet import Session\n"
            f"with Session([], log={self.path!r}) as session:\n"
            "    while True: print(session.submit(1, 7).element, flush=True)\n"
        )
        with subprocess.Popen([sys.executable, "-c", child], stdout=subprocess.PIPE, text=True) as client:
            assert client.stdout
            told = [client.stdout.readline() for _ in range(50)]
            client.send_signal(signal.SIGKILL)
            told += client.stdout.readlines()
        with Session.from_log(self.path) as session:
            waiting = session.count().waiting
            self.assertIn(waiting - len(told), (0, 1))
            self.assertEqual({session.read(int(it)).words[0] for it in told}, {7})
            self.assertEqual(session.submit(1, 8).element, waiting)

    def test_a_torn_last_line(self) -> None:
        with Session(HEAD, log=self.path) as session:
            session.submit(1, 1)
            session.submit(1, 2)
        with open(self.path, "a", encoding="ascii") as log:
            log.write("submit 1 3")
        for customer in (4, 5):
            with Session.from_log(self.path) as session:
                session.submit(1, customer)
        with Session.from_log(self.path) as session:
            waiting = range(session.count().waiting)
            self.assertEqual([session.read(it).words[0] for it in waiting], [1, 2, 4, 5])

    def test_a_log_is_no_other_sessions(self) -> None:
        with Session(HEAD, log=self.path) as session:
            session.submit(1, 1)
            for other in (Session(HEAD, log=self.path), Session.from_log(self.path)):
                with self.assertRaises(LogFault), other:
                    pass
            self.assertEqual(session.count(), Counts(1, 0, 0, 0, 0))
        # Neither has changed it, and where the session is closed it still isn't begun anew.
        self.assertEqual(self.lines(), [FIRST, *HEAD, "count", "submit 1 1 0"])
        with self.assertRaises(LogFault), Session(HEAD, log=self.path):
            pass
        self.assertEqual(os.listdir(os.path.dirname(self.path)), ["orders.log"])

    def test_a_session_that_doesnt_begin(self) -> None:
        # It leaves no log behind, which would be in the way of the next one.
        with self.assertRaises(refusals.BadLimits), Session(["limit 0"], log=self.path):
            pass
        with self.assertRaises(NoProgram), Session(HEAD, program="/nowhere/tp_live", log=self.path):
            pass
        self.assertEqual(os.listdir(os.path.dirname(self.path)), [])
        with Session(HEAD, log=self.path) as session:
            self.assertEqual(session.submit(1, 1).element, 0)

    def test_another_version(self) -> None:
        with Session(HEAD, log=self.path) as session:
            session.submit(1, 1)
        text = Path(self.path).read_bytes()
        # (older ones have no such line)
        for first in (b"", b"# covetrivet log 1\n", b"# covetrivet log\n", b"# covetrivet log 2 \n"):
            other = text.replace(b"# covetrivet log 2\n", first) + b"torn"
            Path(self.path).write_bytes(other)
            with self.assertRaisesRegex(LogFault, "no log of this version"), Session.from_log(self.path):
                pass
            # It is left as it is, and so is a torn last line.
            self.assertEqual(Path(self.path).read_bytes(), other)
        Path(self.path).write_bytes(text)
        with Session.from_log(self.path) as session:
            self.assertEqual(session.count(), Counts(1, 0, 0, 0, 0))

    def test_no_log(self) -> None:
        with self.assertRaises(LogFault), Session.from_log(self.path):
            pass
        Path(self.path).write_bytes(b"")
        with self.assertRaises(LogFault), Session.from_log(self.path):
            pass
        with self.assertRaises(LogFault), Session(HEAD, log=f"{self.path}/nowhere"):
            pass
        with Session(HEAD) as session:
            with self.assertRaises(LogFault):
                session.shorten_log()
            self.assertEqual(session.submit(1, 1).element, 0)

    def test_a_log_that_cant_be_written(self) -> None:
        with Session(HEAD, log=self.path) as session:
            session.submit(1, 1)
            assert session._log
            os.close(session._log.descriptor)
            session._log.descriptor = os.open("/dev/full", os.O_WRONLY)
            with self.assertRaises(OSError):
                session.submit(1, 2)
            with self.assertRaises(SessionBroken):
                session.submit(1, 3)
        with Session.from_log(self.path) as session:
            self.assertEqual(session.count(), Counts(1, 0, 0, 0, 0))

    def test_a_short_log(self) -> None:
        with Session([*HEAD, "worker late 1"], log=self.path) as session:
            for customer in range(5):
                session.submit(1, customer)
            session.cancel(1)
            session.claim("clerk")
            session.claim("late")
            session.release(2)
            before = session.dump().lines
            session.shorten_log()
            self.assertEqual(session.commit("clerk", Draft(15, 5)).unit, 0)
        self.assertEqual(self.lines(), [FIRST, *before, "commit clerk 15:5:0:0:0"])
        for _life in range(2):
            with Session.from_log(self.path) as session:
                self.assertEqual([it.words[0] for it in session.reply(0)], [5])
                self.assertEqual([session.read(it).words[0] for it in session.waiting(1)], [2, 3, 4])
                self.assertEqual(session.count(), Counts(4, 0, 1, 0, 1))
                self.lost(session)
        with Session.from_log(self.path) as session:
            with self.assertRaises(refusals.Lost) as lost:
                session.commit("late")
            self.assertEqual(lost.exception.element, 2)
            # It has heard of that, also in the next life.
            work = session.claim("clerk")
            assert work
            self.assertEqual((work.element, work.attempt), (2, 2))
            session.kill(2)
            self.lost(session)
        with Session.from_log(self.path) as session:
            with self.assertRaises(refusals.AlreadyAborted) as already:
                session.abort("clerk")
            self.assertEqual(already.exception.element, 2)
            self.assertIsNone(session.last_work("late").work)

    def test_workers_that_come(self) -> None:
        # (as commands: the log's head ends before them, and what was refused behind it is refused again)
        with Session([], log=self.path) as session:
            session.join("clerk", 1)
            with self.assertRaises(refusals.Order):
                session.do(Command("over", 2, read=str))
            self.lost(session)
        with Session.from_log(self.path) as session:
            self.assertIsNone(session.claim("clerk"))
            self.assertIn("limit 3", session.dump().lines)


if __name__ == "__main__":
    unittest.main()
