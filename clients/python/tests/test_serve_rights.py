"""A server: who may do what, by the system's word or by a token, over a Unix socket and TCP."""
from __future__ import annotations

import os
import socket
import tempfile
import time
import unittest

from serving import Client, Serving, comes

HEAD = ("worker packer 1", "worker other 2")
DENIED = "refused 18 Denied"
COUNTED = "waiting 0 held 0 consumed 0 parked 0 killed 0"


class OverTcp(Client):
    """A connection over TCP."""

    def __init__(self, port: int) -> None:
        self.socket = socket.create_connection(("127.0.0.1", port), 30)
        self.reader = self.socket.makefile("rb")


def free_port() -> int:
    with socket.socket() as it:
        it.bind(("127.0.0.1", 0))
        port: int = it.getsockname()[1]
        return port


class ServeRights(unittest.TestCase):
    def setUp(self) -> None:
        folder = tempfile.TemporaryDirectory()
        self.addCleanup(folder.cleanup)
        self.folder = folder.name
        self.me = os.getuid()

    def file(self, name: str, *lines: str, mode: int = 0o600) -> str:
        path = f"{self.folder}/{name}"
        with open(path, "w", encoding="ascii") as it:
            it.writelines(f"{line}\n" for line in lines)
        os.chmod(path, mode)
        return path

    def server(self, *options: str) -> Serving:
        return Serving(HEAD, *options)

    def test_rights_of_a_user(self) -> None:
        rights = self.file(
            "rights", "# who  verbs  names  stages", f"user:{self.me} claim,commit,next pack* 1",
            f"user:{self.me} submit,worker,list - 1,3-5", "user:4294967 * * *", "any count - -",
        )  # fmt: skip
        with self.server("--rights", rights) as server:
            it = server.client()
            for line, is_allowed in (
                ("submit 1 5 6", True), ("submit 2 5 6", False), ("  submit   4 5 6", True),
                ("submit", True), ("claim packer", True), ("claim other", False), ("claim", False),
                ("claim\tpacker", False), ("commit packer 2:1:1", False), ("dump", False),
                ("commit packer 1:1:1 15:1:1", False), ("commit packer", True), ("count", True),
                ("@1 next packer wait 0", True), ("next other wait 0", False), ("kill 0", False),
                ("nonsense", False), ("list 5", True), ("list 6", False), ("token x", False),
            ):  # fmt: skip
                with self.subTest(line):
                    if line == "token x":
                        self.assertEqual(it.ask(line), [DENIED])
                        self.assertEqual(it.rest(), [])
                    else:
                        said = it.ask(line)[0]
                        self.assertEqual(said.endswith(DENIED), not is_allowed, said)
            self.assertEqual(server.counted('refusals_total{why="Denied"}'), 12)
            right = f'right_lines_total{{number="1",right="user:{self.me}"}}'
            self.assertEqual(server.counted(right), 3)

    def test_a_denied_line_is_answered_in_its_turn(self) -> None:
        rights = self.file("rights", "any count * *")
        with self.server("--rights", rights) as server:
            it = server.client()
            it.send(*["submit 1 1 1", "count", "@t kill 0"] * 300)
            said = [it.line() for _ in range(900)]
            self.assertEqual(said, [DENIED, COUNTED, f"@t {DENIED}"] * 300)

    def test_a_denied_line_comes_behind_a_dump(self) -> None:
        rights = self.file("rights", "any dump * *")
        with self.server("--rights", rights) as server:
            it = server.client()
            it.send(*["dump", "@t kill 0"] * 50)
            for _ in range(50):
                many = int(it.line().removeprefix("dumped "))
                self.assertEqual({it.line()[:2] for _ in range(many)}, {"> "})
                self.assertEqual(it.line(), f"@t {DENIED}")

    def test_the_program_never_sees_it(self) -> None:
        rights = self.file("rights", "any balance * *")
        with self.server("--rights", rights) as server:
            it = server.client()
            first = it.ask("balance packer 1")[0]
            it.ask(*["submit 1 1 1"] * 10)
            second = it.ask("balance packer 1")[0]
            lines = [int(said.split(" ")[2].rstrip(":")) for said in (first, second)]
            self.assertEqual(lines[1] - lines[0], 1)

    def test_whom_no_right_is_of(self) -> None:
        rights = self.file("rights", "user:4294967 * * *")
        with self.server("--rights", rights) as server:
            self.assertEqual(server.client().rest(), ["covetrivet: no right is of this client"])
            self.assertEqual(server.counted('let_go_total{why="denied"}'), 1)

    def test_one_that_has_a_token_alone(self) -> None:
        rights = self.file("rights", "token:app count - -")
        with self.server("--rights", rights, "--tokens", self.file("tokens", "app Sesame1")) as server:
            said = server.client().ask("count", "token Sesame1", "count", "depth")
            self.assertEqual(said, [DENIED, "token app", COUNTED, DENIED])

    def test_groups(self) -> None:
        for group, is_allowed in (os.getgid(), True), (4294967, False):
            rights = self.file("rights", f"group:{group} * * *", "any depth - -")
            with self.server("--rights", rights) as server:
                self.assertEqual(server.client().ask("count") == [COUNTED], is_allowed)

    def test_tokens_over_tcp(self) -> None:
        port = free_port()
        tokens = self.file("tokens", "app Sesame1", "ops Sesame2")
        mine = f"user:{self.me} count - -"
        rights = self.file("rights", "token:app submit,count * 1", "token:ops * * *", mine)
        options = "--rights", rights, "--tokens", tokens, "--tcp", f"127.0.0.1:{port}"
        with self.server(*options) as server:
            with OverTcp(port) as it:
                # Before it is known nothing is done for it.
                self.assertEqual(it.ask("count", "submit 1 1 1"), [DENIED, DENIED])
                self.assertEqual(it.ask("@t token Sesame1"), ["@t token app"])
                said = it.ask("submit 1 5 6", "submit 2 5 6", "dump")
                self.assertEqual(said, ["submitted 0", DENIED, DENIED])
                # It may show another one.
                self.assertEqual(it.ask("token Sesame2", "submit 2 5 6"), ["token ops", "submitted 1"])
            for wrong in "token Sesame", "token", "token Sesame11":
                with OverTcp(port) as it:
                    begun = time.monotonic()
                    it.send("count", wrong, "token Sesame1", "count")
                    self.assertEqual(it.rest(), [DENIED, DENIED])
                    self.assertLess(time.monotonic() - begun, 5)
            local = server.client()
            said = local.ask("dump", "token Sesame1", "submit 1 1 1")
            self.assertEqual(said, [DENIED, "token app", "submitted 2"])

    def test_without_rights_a_token_may_all(self) -> None:
        port = free_port()
        tokens = self.file("tokens", "app Sesame1")
        with self.server("--tokens", tokens, "--tcp", f"127.0.0.1:{port}") as server:
            with OverTcp(port) as it:
                self.assertEqual(it.ask("count", "token Sesame1", "count"), [DENIED, "token app", COUNTED])
                # Of one that says no more nobody knows whether it is there. So it waits no longer.
                it.send("claim packer wait 60")
                self.assertTrue(comes(lambda: server.counted("lines_waiting") == 1))
                it.say_all()
                self.assertEqual(it.rest(), ["packer idle"])

    def test_a_stranger_has_ten_seconds(self) -> None:
        port = free_port()
        with self.server("--tokens", self.file("tokens", "a b"), "--tcp", f"127.0.0.1:{port}") as server:
            with OverTcp(port) as it:
                self.assertEqual(it.rest(), [])
            self.assertEqual(server.counted('let_go_total{why="token"}'), 1)

    def test_files_that_are_none(self) -> None:
        for options, status, said in (
            (("--rights", f"{self.folder}/nothing"), 66, "can't read"),
            (("--rights", self.file("r1", "any * *")), 65, "r1:1: a line has 4 words"),
            (("--rights", self.file("r2", "", "any jump * *")), 65, "r2:2: jump is no word"),
            (("--rights", self.file("r3", "user:no-such-user * * *")), 65, "isn't in /etc/passwd"),
            (("--tokens", self.file("t1", "a b", mode=0o644)), 66, "others may read it"),
            (("--tokens", self.file("t2", "a b c")), 65, "t2:1: not NAME SECRET"),
            (("--tcp", "127.0.0.1:0"), 64, "--tcp needs --tokens"),
            (("--tokens", self.file("t3", "a b"), "--tcp", "nowhere.invalid:1"), 73, "can't be had"),
        ):
            with self.subTest(said), tempfile.TemporaryDirectory() as folder:
                found, _, errors = Serving(HEAD, *options, folder=folder).begin().end()
                self.assertEqual(found, status, errors)
                self.assertIn(said, errors)


if __name__ == "__main__":
    unittest.main()
