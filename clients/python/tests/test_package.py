"""The package: where it finds the program, what its command says, and what it shows of the program."""
from __future__ import annotations

import os
import re
import shutil
import subprocess
import sys
import tempfile
import textwrap
import time
import unittest
from pathlib import Path

import covetrivet
from covetrivet import NoProgram, Session, SessionEnded, program

HEAD = ["keep 8"]


def command(*words: str, given: str = "", **environment: str) -> subprocess.CompletedProcess[str]:
    kept = {name: value for name, value in os.environ.items() if name != "COVETRIVET_PROGRAM"}
    words = sys.executable, "-m", "covetrivet", *words
    kept |= environment
    return subprocess.run(words, input=given, capture_output=True, text=True, env=kept, check=False)


class Programs(unittest.TestCase):
    def test_by_argument_and_by_environment(self) -> None:
        found = program.find()
        named = os.environ.pop(program.VARIABLE, None)
        try:
            with Session(HEAD, program=found) as session:
                self.assertEqual(session.submit(1, 5).element, 0)
            if len(found) == 1:
                with Session(HEAD, program=Path(found[0])) as session:
                    self.assertEqual(session.submit(1, 5).element, 0)
                os.environ[program.VARIABLE] = found[0]
                with Session(HEAD) as session:
                    self.assertEqual(session.submit(1, 5).element, 0)
        finally:
            if named:
                os.environ[program.VARIABLE] = named

    def test_no_program(self) -> None:
        with self.assertRaises(NoProgram) as caught, Session(HEAD, program="/nowhere/tp_live"):
            pass
        for word in ("/nowhere/tp_live", "No such file", "COVETRIVET_PROGRAM", "./prove"):
            self.assertIn(word, str(caught.exception))

    def test_no_program_at_all(self) -> None:
        # A copy of the package by itself, in no checkout.
        with tempfile.TemporaryDirectory() as folder:
            shutil.copytree(Path(covetrivet.__file__).parent, f"{folder}/covetrivet")
            said = command(given="keep 8\ncount\n", PYTHONPATH=folder)
            self.assertEqual((said.returncode, said.stdout), (69, ""))
            self.assertIn("COVETRIVET_PROGRAM", said.stderr)
            self.assertNotIn("Traceback", said.stderr)

    def test_no_server(self) -> None:
        with tempfile.TemporaryDirectory() as folder:
            shutil.copytree(Path(covetrivet.__file__).parent, f"{folder}/covetrivet")
            for named in "", "/nowhere/covetrivetd":
                said = command("serve", "--help", PYTHONPATH=folder, COVETRIVET_SERVER=named)
                self.assertEqual((said.returncode, said.stdout), (69, ""))
                self.assertIn("COVETRIVET_SERVER", said.stderr)
                self.assertIn(named, said.stderr)
                self.assertNotIn("Traceback", said.stderr)

    def test_the_program_of_a_checkout(self) -> None:
        with tempfile.TemporaryDirectory() as folder:
            top = Path(folder)
            (top / "crates" / "tp_live").mkdir(parents=True)
            package = top / "clients" / "python" / "covetrivet"
            shutil.copytree(Path(covetrivet.__file__).parent, package)
            found = " ".join(program.find())
            (top / "run").write_text(f'#!/bin/sh\n[ "$1" = --live ] && exec {found}\n')
            (top / "run").chmod(0o755)
            (top / "CHANGELOG.md").write_text("# Changes\n\n## 7.8.9\n\n## 7.8.8\n")
            said = command(given="keep 8\nsubmit 1 5 6\n", PYTHONPATH=str(package.parent))
            self.assertEqual((said.stdout, said.stderr), ("submitted 0\n", ""))
            said = command("--version", PYTHONPATH=str(package.parent))
            self.assertEqual(said.stdout, "covetrivet 7.8.9\n")

    def test_how_a_program_ends(self) -> None:
        with Session(HEAD) as session:
            session.process.kill()
            for _ in range(2):
                with self.assertRaises(SessionEnded) as caught:
                    session.count()
                self.assertEqual(caught.exception.status, -9)
                self.assertIn("SIGKILL", str(caught.exception))

    def test_what_the_program_says_is_shown_at_once(self) -> None:
        # A program that says what it does before it answers anything, as ./run --live where it compiles.
        with tempfile.TemporaryDirectory() as folder:
            told = f"{folder}/told"
            found = " ".join(program.find())
            slow = f"echo compiling >&2; while ! [ -e {told} ]; do sleep 0.05; done; exec {found}"
            client = f"""
from covetrivet import Session
with Session(["keep 8"], ["sh", "-c", {slow!r}]) as session:
    print(session.count().waiting)
"""
            pipe = subprocess.PIPE
            with subprocess.Popen([sys.executable, "-c", client], stderr=pipe, stdout=pipe, text=True) as it:
                assert it.stderr and it.stdout
                self.assertEqual(it.stderr.readline(), "compiling\n")
                Path(told).touch()
                self.assertEqual(it.stdout.read(), "0\n")

    def test_a_program_that_ends_badly(self) -> None:
        found = " ".join(program.find())
        with self.assertRaises(SessionEnded) as caught:
            with Session(HEAD, ["sh", "-c", f"{found}; echo 'fault 3 Write' >&2; exit 1"]) as session:
                self.assertEqual(session.count().waiting, 0)
        self.assertEqual((caught.exception.status, caught.exception.said), (1, "fault 3 Write\n"))

    def test_a_program_that_never_answers(self) -> None:
        begun = time.monotonic()
        with self.assertRaises(KeyError), Session(HEAD, seconds=0.2) as session:
            session.process.send_signal(19)
            with self.assertRaises(TimeoutError):
                session.count()
            # The session's end doesn't wait for it.
            raise KeyError
        self.assertLess(time.monotonic() - begun, 60)
        self.assertEqual(session.process.returncode, -9)


class Pages(unittest.TestCase):
    def test_what_the_page_shows(self) -> None:
        page = (Path(__file__).resolve().parents[3] / "docs" / "LIVE.md").read_text(encoding="utf-8")
        shown = re.findall(r"(?m)^    from covetrivet import .*\n(?:(?:    .*)?\n)+", page)
        self.assertEqual(len(shown), 1)
        found: dict[str, object] = {}
        exec(textwrap.dedent(shown[0]), found)
        self.assertEqual([it.value.element for it in found["asked"]], [0, 1])  # type: ignore[attr-defined]
        self.assertIsNone(found["work"])


class Commands(unittest.TestCase):
    def test_help(self) -> None:
        said = command("--help")
        lines = said.stdout.splitlines()
        self.assertEqual((said.returncode, said.stderr), (0, ""))
        self.assertLessEqual(len(lines), 24)
        self.assertLessEqual(max(map(len, lines)), 80)

    def test_help_names_each_command(self) -> None:
        words = re.findall("[a-z]+", command("--help").stdout)
        wanted = "limit max keep server start worker submit claim next take prepare commit abort drop turn"
        wanted += " kill cancel requeue release read reply collect family errors count depth list holds"
        wanted += " balance sum account drain dump restore register send receive last forget leave"
        self.assertEqual([it for it in wanted.split() if it not in words], [])

    def test_version(self) -> None:
        said = command("--version")
        self.assertEqual(said.stdout, f"covetrivet {covetrivet.__version__}\n")
        self.assertRegex(covetrivet.__version__, r"^\d+\.\d+\.\d+$")

    def test_a_session(self) -> None:
        lines = "keep 8\nworker packer 1\n"
        lines += "submit 1 5 6\nclaim packer\ncommit packer 15:5:6\n"
        wanted = "submitted 0\npacker work 0 unit 0 attempt 1 root 0 body 5:6:0:0 try 1\n"
        wanted += "packer done 0 unit 0 outputs 1 1\n"
        found = program.find()
        named = {program.VARIABLE: found[0]} if len(found) == 1 else {}
        self.assertEqual(command(given=lines, **named).stdout, wanted)
        with tempfile.NamedTemporaryFile("w", suffix=".session") as file:
            file.write(lines)
            file.flush()
            self.assertEqual(command(file.name, **named).stdout, wanted)

    def test_wrong_words(self) -> None:
        self.assertEqual(command("--nonsense").returncode, 64)
        self.assertEqual(command("one", "two").returncode, 64)
        self.assertEqual(command("/nowhere.session").returncode, 66)


if __name__ == "__main__":
    unittest.main()
