"""A server: the pages that it tells by HTTP, systemd, links and deleted files, and floods."""
from __future__ import annotations

import contextlib
import os
import re
import shutil
import signal
import socket
import subprocess
import sys
import tempfile
import threading
import time
import unittest
from unittest import mock

from covetrivet import program
from serving import SECONDS, Client, Serving, comes
from test_serve_rights import OverTcp, free_port

WORKER = ("worker packer 1",)


def get(path: str, page: str) -> tuple[str, str]:
    """Returns the status and the text of a page."""
    with Client(path) as it:
        it.socket.sendall(f"GET {page} HTTP/1.1\r\nHost: x\r\n\r\n".encode())
        head, _, text = it.reader.read().decode("ascii").partition("\r\n\r\n")
    return head.split("\r\n")[0].partition(" ")[2], text


class ServePages(unittest.TestCase):
    def test_what_prometheus_takes(self) -> None:
        with Serving(WORKER, "--rights", self.rights()) as server:
            it = server.client()
            it.ask("submit 1 5 6", "claim packer", "claim packer", "nonsense", "dump")
            for page in "/metrics", "/clients":
                status, text = get(server.metrics, page)
                self.assertEqual(status, "200 OK")
                # Each metric is told of once, before its values, and each value once.
                form = r"(?m)^# HELP (\w+) [A-Z].*\.\n# TYPE (\w+) (?:counter|gauge|histogram)$"
                about = re.findall(form, text)
                self.assertEqual(text.count("# "), 2 * len(about))
                self.assertEqual(len(dict(about)), len(about))
                self.assertEqual({name for name, same in about if name != same}, set())
                values = [line.rpartition(" ")[0] for line in text.splitlines() if line[:1] != "#"]
                self.assertEqual(len(set(values)), len(values))
                if shutil.which("promtool"):
                    words = ["promtool", "check", "metrics"]
                    said = subprocess.run(words, input=text, capture_output=True, text=True, check=False)
                    self.assertEqual((said.returncode, said.stdout + said.stderr), (0, ""))

    def rights(self) -> str:
        folder = tempfile.TemporaryDirectory()
        self.addCleanup(folder.cleanup)
        with open(f"{folder.name}/rights", "w", encoding="ascii") as file:
            file.write("any * * *\nany count - -\n")
        return file.name

    def test_how_long_lines_waited(self) -> None:
        with Serving(WORKER) as server:
            it = server.client()
            it.ask(*["count"] * 20)
            server.signal_session(signal.SIGSTOP)
            it.send("count")
            self.assertTrue(comes(lambda: server.counted("lines_in_flight") >= 1))
            time.sleep(0.6)
            server.signal_session(signal.SIGCONT)
            it.line()
            # (those of the pages before that waited too)
            text = get(server.metrics, "/metrics")[1]
            buckets = [int(it) for it in re.findall(r"answer_seconds_bucket\{.*\} (\d+)", text)]
            self.assertEqual(buckets, sorted(buckets))
            self.assertEqual(len(buckets), 13)
            self.assertEqual(buckets[-1], int(server.counted("answer_seconds_count")) - 2)
            half = re.search(r'le="0.524288"\} (\d+)', text)
            self.assertLess(int(half[1]) if half else -1, buckets[-1])

    def test_whether_it_is_ready(self) -> None:
        with Serving(WORKER) as server:
            self.assertEqual(get(server.metrics, "/healthz"), ("200 OK", "ok\n"))
            self.assertEqual(get(server.metrics, "/ready"), ("200 OK", "ok\n"))
            server.signal_session(signal.SIGSTOP)
            self.assertEqual(get(server.metrics, "/healthz"), ("200 OK", "ok\n"))
            self.assertEqual(get(server.metrics, "/ready")[0], "503 Service Unavailable")
            server.signal_session(signal.SIGCONT)
            self.assertTrue(comes(lambda: get(server.metrics, "/ready")[0] == "200 OK"))
            self.assertEqual(get(server.metrics, "/nothing")[0], "404 Not Found")

    def test_clients(self) -> None:
        with Serving(WORKER) as server:
            one, two = server.clients(2)
            one.ask("count", "count")
            two.ask("count")
            text = get(server.metrics, "/clients")[1]
            who = f'who="user:{os.getuid()} process:{os.getpid()}"'
            for number, lines in (1, 2), (2, 1):
                self.assertIn(f'covetrivet_client_lines_total{{client="{number}",{who}}} {lines}\n', text)

    def test_over_tcp(self) -> None:
        port = free_port()
        with Serving(WORKER) as server:
            words = [*program.find_server(), "--socket", f"{server.path}.second", "--head"]
            words += [f"{server.folder}/head", "--metrics", f"127.0.0.1:{port}", "--", *program.find()]
            with subprocess.Popen(words, stderr=subprocess.PIPE, text=True) as second:
                self.assertIn("serves on", second.stderr.readline() if second.stderr else "")
                with OverTcp(port) as it:
                    it.socket.sendall(b"GET /healthz HTTP/1.0\r\n\r\n")
                    self.assertRegex(it.reader.read().decode("ascii"), "^HTTP/1.0 200 OK\r\n")
                second.terminate()

    def test_a_request_that_is_too_long(self) -> None:
        with Serving(WORKER) as server, Client(server.metrics) as it:
            begun = time.monotonic()
            it.socket.sendall(b"x" * 5000)
            self.assertEqual(it.rest(), [])
            # (one that says too little is closed behind five seconds)
            self.assertLess(time.monotonic() - begun, 4)

    def test_any_request(self) -> None:
        with Serving(WORKER) as server:
            twice = b"GET /metrics\r\n\r\n" * 2
            for said in b"\r\n\r\n", b"GET", twice, b"\0" * 4096, os.urandom(5000), b"x" * 4095 + b"\n":
                with Client(server.metrics) as it:
                    it.socket.sendall(said)
                    it.say_all()
                    with contextlib.suppress(ConnectionResetError):
                        it.reader.read()
            self.assertEqual(get(server.metrics, "/ready")[0], "200 OK")


class ServeLinks(unittest.TestCase):
    def setUp(self) -> None:
        folder = tempfile.TemporaryDirectory()
        self.addCleanup(folder.cleanup)
        self.folder = folder.name

    def test_links_are_refused(self) -> None:
        for name in "socket", "socket.lock", "metrics", "metrics.lock":
            with self.subTest(name):
                link, other = f"{self.folder}/{name}", f"{self.folder}/other"
                os.symlink(other, link)
                status, _, errors = Serving(WORKER, folder=self.folder).begin().end()
                self.assertEqual(status, 73)
                self.assertIn(f"{link} is a symbolic link", errors)
                self.assertFalse(os.path.exists(other))
                for it in os.listdir(self.folder):
                    os.unlink(f"{self.folder}/{it}")

    def test_files_that_were_deleted(self) -> None:
        with Serving(WORKER, folder=self.folder) as first:
            it = first.client()
            for name in "socket", "socket.lock":
                os.unlink(f"{self.folder}/{name}")
            second = Serving(WORKER, folder=self.folder)
            second.metrics = f"{self.folder}/other"
            status, _, errors = second.begin().end()
            self.assertEqual(status, 73)
            self.assertIn("another server has", errors)
            self.assertIn("whose files were deleted meanwhile", errors)
            self.assertEqual(it.ask("submit 1 5 6"), ["submitted 0"])
        # Once it is gone the place is free.
        with Serving(WORKER, folder=self.folder) as third:
            self.assertEqual(third.client().ask("submit 1 5 6"), ["submitted 0"])


class ServeSystemd(unittest.TestCase):
    def test_words(self) -> None:
        with tempfile.TemporaryDirectory() as folder:
            for name in f"{folder}/notify", f"\0covetrivet-test-{os.getpid()}":
                with socket.socket(socket.AF_UNIX, socket.SOCK_DGRAM) as it:
                    it.bind(name)
                    it.settimeout(SECONDS)
                    told = {"NOTIFY_SOCKET": name.replace("\0", "@")}
                    with mock.patch.dict(os.environ, told), Serving(WORKER) as server:
                        self.assertEqual(it.recv(100), b"READY=1")
                        server.signal(signal.SIGTERM)
                        self.assertEqual(it.recv(100), b"STOPPING=1")
                        server.end()

    def test_sockets(self) -> None:
        """Who connects while the server begins again waits, and is answered by the next one."""
        with tempfile.TemporaryDirectory() as folder, socket.socket(socket.AF_UNIX) as listener:
            path = f"{folder}/socket"
            listener.bind(path)
            listener.listen()
            with open(f"{folder}/head", "w", encoding="ascii") as file:
                file.write("worker packer 1\n")
            words = [*program.find_server(), "--socket", path, "--head", f"{folder}/head", "--"]
            words += program.find()
            hand_over = (
                "import os, sys\nos.dup2(int(sys.argv[1]), 3, inheritable=True)\n"
                "os.environ.update(LISTEN_PID=str(os.getpid()), LISTEN_FDS='1')\n"
                "os.execv(sys.argv[2], sys.argv[2:])"
            )
            for _ in range(2):
                with Client(path) as early:
                    early.send("submit 1 5 6")
                    fds = [listener.fileno()]
                    begun = [sys.executable, "-c", hand_over, str(fds[0]), *words]
                    with subprocess.Popen(begun, pass_fds=fds, stderr=subprocess.PIPE) as server:
                        self.assertEqual(early.line(), "submitted 0")
                        server.terminate()
                        self.assertEqual(early.rest(), ["covetrivet: the server ends"])
                        server.communicate()
                    self.assertEqual(server.returncode, 0)
                    self.assertTrue(os.path.exists(path))


class ServeFloods(unittest.TestCase):
    """A client that waits for each answer, beside ten that send all they can."""

    def beside(self, flood: bytes) -> list[float]:
        """Returns how long the answers took."""
        over = threading.Event()
        took = list[float]()

        def send(it: Client) -> None:
            it.socket.settimeout(0.5)
            while not over.is_set():
                with contextlib.suppress(TimeoutError, BrokenPipeError):
                    it.socket.send(flood)

        def read(it: socket.socket) -> None:
            with contextlib.suppress(OSError):
                while it.recv(1 << 20):
                    pass

        with Serving(WORKER) as server:
            polite, *others = server.clients(11)
            # (one for each way, as they wait for different times)
            sockets = [socket.socket(fileno=os.dup(it.socket.fileno())) for it in others]
            threads = [threading.Thread(target=send, args=(it,)) for it in others]
            threads += [threading.Thread(target=read, args=(it,)) for it in sockets]
            for thread in threads:
                thread.start()
            time.sleep(0.3)
            for _ in range(100):
                begun = time.monotonic()
                self.assertEqual(polite.ask("count")[0].split(" ")[0], "waiting")
                took.append(time.monotonic() - begun)
            over.set()
            for own in sockets:
                own.shutdown(socket.SHUT_RDWR)
            for thread in threads:
                thread.join(SECONDS)
            for own in sockets:
                own.close()
        return sorted(took)

    def test_floods(self) -> None:
        usual = self.beside(b"")[50]
        floods = [b"\n" * 65536, b"#\n" * 32768, (b" " * 200 + b"\n") * 300, b"@x\n" * 20000]
        for flood in *floods, b"read 0\n" * 9000, (b"y" * 5000 + b"\n") * 13:
            with self.subTest(flood[:9]):
                took = self.beside(flood)
                # (Python's own threads take the processor too. One that starves waits for seconds.)
                self.assertLess(took[90], max(0.5, 50 * usual), took[-5:])


if __name__ == "__main__":
    unittest.main()
