"""The STOMP gateway of examples/gateway: its rules by a plain socket, and Debian's clients as they are."""
from __future__ import annotations

import shutil
import socket
import subprocess
import sys
import unittest
from pathlib import Path

GATEWAY = Path(__file__).resolve().parents[3] / "examples" / "gateway"
SECONDS = 20
Headers = dict[str, str]


class Stomp:
    """A connection."""

    def __init__(self, port: int, version: str = "1.2") -> None:
        self.version, self.receipts = version, 0
        self.socket = socket.create_connection(("127.0.0.1", port), SECONDS)
        self.reader = self.socket.makefile("rb")
        if version:
            self.send("CONNECT", {"accept-version": version, "host": "it"})
            self.connected = self.frame()

    def send(self, command: str, headers: Headers | None = None, body: bytes = b"") -> None:
        lines = "".join(f"{name}:{value}\n" for name, value in (headers or {}).items())
        self.socket.sendall(f"{command}\n{lines}\n".encode() + body + b"\0\n")

    def frame(self) -> tuple[str, Headers, bytes]:
        """Returns the next frame; one with no command at the end."""
        command = b"\n"
        while command == b"\n":
            command = self.reader.readline()
        if not command:
            return "", {}, b""
        headers: Headers = {}
        while (line := self.reader.readline()) != b"\n":
            name, _, value = line.decode().rstrip("\n").partition(":")
            headers[name] = value if self.version == "1.0" else value.replace("\\c", ":")
        body = self.reader.read(int(headers["content-length"]) + 1)
        return command.decode().rstrip("\n"), headers, body[:-1]

    def do(self, command: str, headers: Headers | None = None, body: bytes = b"") -> Headers:
        """Sends a frame, and returns the headers of its receipt."""
        self.receipts += 1
        self.send(command, {**(headers or {}), "receipt": str(self.receipts)}, body)
        said, told, _ = self.frame()
        if said != "RECEIPT" or told["receipt-id"] != str(self.receipts):
            raise AssertionError((said, told))
        return told

    def message(self) -> tuple[Headers, bytes]:
        command, headers, body = self.frame()
        if command != "MESSAGE":
            raise AssertionError((command, headers))
        return headers, body

    def is_silent(self) -> bool:
        """Whether nothing comes for a moment."""
        self.socket.settimeout(0.3)
        try:
            return not self.socket.recv(1)
        except TimeoutError:
            return True
        finally:
            self.socket.settimeout(SECONDS)

    def subscribe(self, destination: str, **headers: str) -> None:
        more = {name.replace("_", "-"): value for name, value in headers.items()}
        usual = {"id": destination, "destination": destination, "ack": "client-individual"}
        self.send("SUBSCRIBE", {**usual, **more})

    def close(self) -> None:
        self.reader.close()
        self.socket.close()


class Gateway(unittest.TestCase):
    def setUp(self) -> None:
        command = [sys.executable, str(GATEWAY / "gateway.py"), "0", "orders", "bills", "parcels"]
        self.process = subprocess.Popen(command, stdout=subprocess.PIPE, text=True)
        self.addCleanup(self.end)
        said = self.process.stdout.readline() if self.process.stdout else ""
        self.port = int(said.split()[-1])
        self.clients: list[Stomp] = []

    def end(self) -> None:
        for it in self.clients:
            it.close()
        self.process.terminate()
        self.process.communicate()

    def client(self, version: str = "1.2") -> Stomp:
        self.clients.append(Stomp(self.port, version))
        return self.clients[-1]

    def order(self, body: bytes = b"an order") -> str:
        """Sends one, and returns its root."""
        return self.client().do("SEND", {"destination": "/queue/orders"}, body)["element"]

    def clerk(self, **headers: str) -> tuple[Stomp, str]:
        """Returns a consumer of orders with one in its hand, and the token of that."""
        it = self.client()
        it.subscribe("/queue/orders", **headers)
        return it, it.message()[0]["ack"]

    def refused(self, it: Stomp, why: str) -> None:
        """Holds that the next frame is this ERROR, and the last one."""
        command, headers, _ = it.frame()
        self.assertEqual(command, "ERROR")
        self.assertRegex(headers["message"], why)
        self.assertEqual(it.frame()[0], "")


class Connections(Gateway):
    def test_versions(self) -> None:
        for asked, version in ("1.2", "1.2"), ("1.0,1.1", "1.1"), ("1.0", "1.0"), ("1.1,1.2,2.0", "1.2"):
            self.assertEqual(self.client(asked).connected[1]["version"], version)
        self.assertEqual(self.client("2.0").connected[0], "ERROR")
        it = self.client("")
        it.send("SEND", {"destination": "/queue/orders"})
        self.refused(it, "the first frame is CONNECT")
        it = self.client("")
        it.send("STOMP", {})
        self.assertEqual(it.frame()[1]["version"], "1.0")
        self.assertEqual(it.do("DISCONNECT"), {"receipt-id": "1", "content-length": "0"})
        self.assertEqual(it.frame()[0], "")

    def test_headers_and_bodies(self) -> None:
        # A colon, a line end, a backslash and a byte 13 in headers. What 1.0 can't say it doesn't.
        more = {"one\\c": "\\n", "two": "a\\c\\\\\\r"}
        self.client().do("SEND", {"destination": "/queue/orders", **more}, b"x")
        for version, headers in (
            ("1.2", [b"one\\c:\\n\n", b"two:a\\c\\\\\\r\n"]),
            ("1.1", [b"one\\c:\\n\n", b"two:a\\c\\\\\r\n"]),
            ("1.0", [b"two:a:\\\r\n"]),
        ):
            it = self.client(version)
            it.subscribe("/queue/orders")
            lines = [it.reader.readline() for _ in range(3 + len(headers))]
            self.assertEqual(lines[:2], [b"\n", b"MESSAGE\n"])
            self.assertEqual(lines[2 : 2 + len(headers)], headers)
            self.assertEqual(lines[-1][:5], b"root:")
            it.close()
        body = b"a\0b\n" * 1000
        it = self.client()
        it.do("SEND", {"destination": "/queue/bills", "content-length": str(len(body))}, body)
        it.subscribe("/queue/bills")
        self.assertEqual(it.message()[1], body)

    def test_frames_that_are_none(self) -> None:
        for sent, why in (
            (b"JUMP\n\n\0", "no command JUMP"),
            (b"SEND\nno colon\n\n\0", "without a colon"),
            (b"SEND\na:\\x\n\n\0", "stands for nothing"),
            (b"SEND\n\n\0", "lacks the header destination"),
            (b"SEND\ndestination:/queue/orders\ncontent-length:2\n\nabc\0", "no byte 0"),
            (b"SEND\ndestination:/queue/orders\ncontent-length:9999999\n\n", "at most 1048576 bytes"),
            (b"SEND\n" + b"a:b\n" * 100 + b"\n\0", "too many"),
            (b"SEND\n" + b"a" * 5000 + b"\n\n\0", "more than 4096 bytes"),
            (b"SEND\ndestination:/queue/nowhere\n\n\0", "no destination /queue/nowhere"),
            (b"SEND\ndestination:/cancel/9\n\n\0", "no such request"),
            (b"SUBSCRIBE\nid:1\ndestination:/topic/it\n\n\0", "no destination /topic/it"),
            (b"SUBSCRIBE\nid:1\ndestination:/dlq\nack:never\n\n\0", "no such value"),
            (b"COMMIT\ntransaction:t\n\n\0", "no transaction t"),
            (b"BEGIN\ntransaction:t\n\n\0BEGIN\ntransaction:t\n\n\0", "has begun already"),
            (b"ACK\nid:7\n\n\0", "isn't in this client's hand"),
        ):
            it = self.client()
            it.socket.sendall(sent)
            with self.subTest(why):
                self.refused(it, why)


class Units(Gateway):
    def test_a_unit_of_work(self) -> None:
        root = self.order()
        clerk, token = self.clerk()
        others = {it: self.client() for it in ("/queue/bills", "/queue/parcels", f"/reply/{root}")}
        for destination, it in others.items():
            it.subscribe(destination)
        clerk.send("BEGIN", {"transaction": "t"})
        for destination in "/queue/bills", "/queue/parcels", "/reply":
            clerk.send("SEND", {"destination": destination, "transaction": "t"}, destination.encode())
        clerk.do("ACK", {"id": token, "transaction": "t"})
        self.assertTrue(all(it.is_silent() for it in others.values()))
        clerk.do("COMMIT", {"transaction": "t"})
        for it, body in zip(others.values(), (b"/queue/bills", b"/queue/parcels", b"/reply")):
            headers, said = it.message()
            self.assertEqual((said, headers["root"], headers["attempt"]), (body, root, "1"))
        # A reply that was acknowledged is gone.
        reply = others[f"/reply/{root}"]
        reply.close()
        again = self.client()
        again.subscribe(f"/reply/{root}")
        again.do("ACK", {"id": again.message()[0]["ack"]})
        last = self.client()
        last.subscribe(f"/reply/{root}")
        self.assertTrue(last.is_silent())

    def test_a_transaction_that_is_aborted_or_left(self) -> None:
        self.order()
        clerk, token = self.clerk()
        bank = self.client()
        bank.subscribe("/queue/bills")
        for end in "ABORT", "":
            clerk.send("BEGIN", {"transaction": "t"})
            clerk.send("ACK", {"id": token, "transaction": "t"})
            clerk.do("SEND", {"destination": "/queue/bills", "transaction": "t"}, b"never")
            if end:
                clerk.do(end, {"transaction": "t"})
        clerk.close()
        # The message was in hand until the end, which was an attempt.
        other = self.client()
        other.subscribe("/queue/orders")
        self.assertEqual(other.message()[0]["attempt"], "2")
        self.assertTrue(bank.is_silent())

    def test_what_no_unit_of_work_is(self) -> None:
        many = {"prefetch": "9"}
        for frames, why in (
            (["ACK 0", "ACK 1"], "takes one message"),
            (["ACK 0", *["SEND /queue/bills"] * 5], "at most 4 messages"),
            (["SEND /queue/bills", "SEND /queue/bills", "COMMIT"], "sends one message"),
            (["SEND /reply", "COMMIT"], "no destination /reply"),
            (["ACK 0", "SEND /topic/it", "COMMIT"], "no destination /topic/it"),
            (["SEND /cancel/0"], "a cancel is no part"),
            (["NACK 0"], "a NACK is no part"),
        ):
            with self.subTest(why):
                for _ in range(2):
                    self.order()
                it = self.client()
                it.subscribe("/queue/orders", **many)
                tokens = [it.message()[0]["ack"] for _ in range(2)]
                it.send("BEGIN", {"transaction": "t"})
                for frame in frames:
                    command, _, of = frame.partition(" ")
                    headers = {"id": tokens[int(of)]} if command in ("ACK", "NACK") else {"destination": of}
                    it.send(command, {**headers, "transaction": "t"})
                self.refused(it, why)
                # Nothing of it has happened: the messages wait again.
                other = self.client()
                other.subscribe("/queue/orders", ack="auto", prefetch="9")
                self.assertEqual([other.message()[0]["attempt"] for _ in range(2)], ["2", "2"])
                other.do("DISCONNECT")

    def test_a_transaction_of_one_message(self) -> None:
        it = self.client()
        it.send("BEGIN", {"transaction": "t"})
        it.send("SEND", {"destination": "/queue/orders", "transaction": "t"}, b"alone")
        self.assertEqual(it.do("COMMIT", {"transaction": "t"})["element"], "0")
        self.assertEqual(self.clerk()[1], "1")

    def test_four_outputs(self) -> None:
        self.order()
        clerk, token = self.clerk()
        clerk.send("BEGIN", {"transaction": "t"})
        clerk.send("ACK", {"id": token, "transaction": "t"})
        for it in "abcd":
            clerk.send("SEND", {"destination": "/queue/bills", "transaction": "t"}, it.encode())
        clerk.do("COMMIT", {"transaction": "t"})
        bank = self.client()
        bank.subscribe("/queue/bills", prefetch="9")
        self.assertEqual([bank.message()[1] for _ in range(4)], [b"a", b"b", b"c", b"d"])


class Attempts(Gateway):
    def test_dead_letters(self) -> None:
        self.order(b"poison")
        clerk, token = self.clerk()
        for attempt in "2", "3":
            clerk.send("NACK", {"id": token})
            headers, _ = clerk.message()
            self.assertEqual(headers["attempt"], attempt)
            token = headers["ack"]
        clerk.do("NACK", {"id": token})
        boss = self.client()
        boss.subscribe("/dlq")
        headers, body = boss.message()
        self.assertEqual(body, b"poison")
        # A NACK there gives it another round, and an ACK takes it away.
        boss.send("NACK", {"id": headers["ack"]})
        for _ in range(3):
            clerk.send("NACK", {"id": clerk.message()[0]["ack"]})
        boss.do("ACK", {"id": boss.message()[0]["ack"]})
        boss.close()
        boss = self.client()
        boss.subscribe("/dlq")
        self.assertTrue(boss.is_silent())
        self.assertTrue(clerk.is_silent())

    def test_one_that_takes_too_long(self) -> None:
        self.order()
        clerk, token = self.clerk(visibility="300")
        headers, _ = clerk.message()
        self.assertEqual(headers["attempt"], "2")
        clerk.send("ACK", {"id": token, "receipt": "late"})
        command, headers, _ = clerk.frame()
        self.assertEqual((command, headers["receipt-id"]), ("ERROR", "late"))

    def test_one_that_is_unsubscribed(self) -> None:
        self.order()
        clerk, _ = self.clerk()
        clerk.do("UNSUBSCRIBE", {"id": "/queue/orders"})
        self.assertEqual(self.clerk()[0].is_silent(), True)

    def test_a_cancel_in_flight(self) -> None:
        root = self.order()
        clerk, token = self.clerk()
        told = self.client().do("SEND", {"destination": f"/cancel/{root}"})
        self.assertEqual(told["killed"], "1")
        clerk.send("BEGIN", {"transaction": "t"})
        clerk.send("ACK", {"id": token, "transaction": "t"})
        clerk.send("SEND", {"destination": "/queue/bills", "transaction": "t"}, b"never")
        clerk.send("COMMIT", {"transaction": "t"})
        self.refused(clerk, "comes too late: the message was cancelled")
        bank = self.client()
        bank.subscribe("/queue/bills")
        self.assertTrue(bank.is_silent())

    def test_acknowledged_by_others_rules(self) -> None:
        for it in b"1", b"2", b"3", b"4":
            self.order(it)
        # `client`: the second one acknowledges the first one too.
        clerk, _ = self.clerk(ack="client", prefetch="2")
        clerk.do("ACK", {"id": clerk.message()[0]["ack"]})
        self.assertEqual([clerk.message()[1] for _ in range(2)], [b"3", b"4"])
        clerk.close()
        # `auto`: what is handed out is consumed.
        other = self.client("1.1")
        other.subscribe("/queue/orders", ack="auto")
        self.assertEqual([other.message()[1] for _ in range(2)], [b"3", b"4"])
        other.close()
        self.order(b"5")
        last = self.client("1.0")
        last.subscribe("/queue/orders", ack="client")
        headers, body = last.message()
        self.assertEqual((body, "ack" in headers), (b"5", True))
        last.do("ACK", {"message-id": headers["message-id"]})

    def test_thousands_of_messages(self) -> None:
        # (each with its body)
        it, clerk = self.client(), self.client()
        clerk.subscribe("/queue/orders", ack="client-individual")
        for number in range(3000):
            it.send("SEND", {"destination": "/queue/orders"}, b"%d" % number)
            headers, body = clerk.message()
            self.assertEqual((body, headers["attempt"]), (b"%d" % number, "1"))
            clerk.send("ACK", {"id": headers["ack"]})


class Unmodified(Gateway):
    def expect(self, kind: str, *command: str) -> None:
        words = [*command, str(self.port)]
        run = subprocess.run(words, capture_output=True, text=True, check=False, timeout=60)
        lines = (GATEWAY / "clients" / "expected").read_text(encoding="ascii").splitlines()
        wanted = [it.removeprefix(f"{kind}: ") for it in lines if it.startswith(f"{kind}: ")]
        self.assertEqual((run.stdout.splitlines(), run.returncode), (wanted, 0), run.stderr)

    def has(self, *command: str) -> bool:
        there = shutil.which(command[0])
        return bool(there) and subprocess.run(command, capture_output=True, check=False).returncode == 0

    def test_python(self) -> None:
        if not self.has("/usr/bin/python3", "-c", "import stomp"):
            self.skipTest("no python3-stomp")
        self.expect("python", "/usr/bin/python3", str(GATEWAY / "clients" / "with_python.py"))

    def test_ruby(self) -> None:
        if not self.has("ruby", "-e", "require 'stomp'"):
            self.skipTest("no ruby-stomp")
        self.expect("ruby", "ruby", str(GATEWAY / "clients" / "with_ruby.rb"))

    def test_perl(self) -> None:
        if not self.has("perl", "-e", "use Net::Stomp"):
            self.skipTest("no libnet-stomp-perl")
        self.expect("perl", "perl", str(GATEWAY / "clients" / "with_perl.pl"))


if __name__ == "__main__":
    unittest.main()
