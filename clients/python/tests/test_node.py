"""A node's parts: the session that is fed a log, and what stands in that."""
from __future__ import annotations

import base64
import contextlib
import http.server
import json
import random
import subprocess
import sys
import threading
import unittest
import zlib
from collections.abc import Iterator
from unittest import mock

from covetrivet.etcd import EtcdLog, Gateway, Json, coded
from covetrivet.node_process import NodeProcess
from covetrivet.replica import Replica
from covetrivet.shared_log import Base, Diverged, InDoubt, LogFull, LogLost, Record, Token
from memory_log import MemoryLog, Store

HEAD = ["keep 5", "server till eager 2 1 add", "worker wa 1", "worker wb 1"]


def random_lines(dice: random.Random, answers: list[str]) -> list[str]:
    """Returns some lines, by ids that were told before."""
    ids = [it.split()[1] for it in answers if it.startswith("submitted ")] or ["0"]
    lines: list[str] = []
    for _ in range(dice.randint(1, 12)):
        name, element = dice.choice(["wa", "wb"]), dice.choice(ids[-12:])
        lines.append(
            dice.choice(
                [
                    f"submit 1 {dice.randint(0, 99)} 5", f"claim {name}", f"commit {name} 2:0:1 15:1:2",
                    f"abort {name}", f"kill {element}", f"cancel {element}", f"read {element}",
                    f"family {element}", "turn till", f"collect {element}", f"take {name} {element}",
                    f"release {element}", "errors", "dump", "rubbish \xe9", "claim till",
                    f"requeue {element}", "account", f"next {name}", "depth",
                    f"list {dice.randint(1, 2)} {int(element) + dice.randint(0, 1)}", "leave wb",
                    f"worker {dice.choice(['wb', 'wc'])} {dice.randint(1, 3)}", "worker wd 2", " leave  wd",
                ]
            )  # fmt: skip
        )
    return lines


class Replicas(unittest.TestCase):
    def test_one_that_goes_on_from_a_dump(self) -> None:
        for seed in range(12):
            dice, told_so_far = random.Random(seed), list[str]()
            with contextlib.ExitStack() as stack:
                first = Replica(Base(0, "", HEAD))
                stack.enter_context(first)
                others: list[Replica] = []
                for place in range(60):
                    record = Record("n1", first.digest, random_lines(dice, told_so_far))
                    told_so_far += first.feed(place, record)
                    for it in others:
                        it.feed(place, record)
                    self.assertEqual({it.digest for it in others} - {first.digest}, set())
                    for it in others:
                        self.assertEqual((it.units(), it.names), (first.units(), first.names))
                    if place % 7 == 6:
                        base = first.base()
                        self.assertEqual((base.place, base.digest), (place + 1, first.digest))
                        another = Replica(base)
                        stack.enter_context(another)
                        others = [*others[-1:], another]

    def test_records_that_do_not_fit(self) -> None:
        with Replica(Base(4, "d0", HEAD)) as replica:
            assert isinstance(replica, Replica)
            with self.assertRaises(LogLost):
                replica.feed(5, Record("n1", "d0", ["count"]))
            with self.assertRaises(Diverged):
                replica.feed(4, Record("n1", "d1", ["count"]))
            self.assertEqual(replica.feed(4, Record("n1", "d0", ["errors"])), ["errors"])

    def test_a_log_of_another_version(self) -> None:
        record = '{"version":2,"by":"n1","digest":"d0","lines":["count"]}'
        base = '{"version":2,"place":7,"digest":"d0","lines":["keep 8"]}'
        both = Record("n1", "d0", ["count"]), Base(7, "d0", ["keep 8"])
        self.assertEqual((both[0].text(), both[1].text()), (record, base))
        self.assertEqual((Record.of(record), Base.of(base)), both)
        for other, named in ("", "none"), ('"version":1,', "1"), ('"version":"2",', "2"):
            for text, of in (record, Record.of), (base, Base.of):
                with self.assertRaisesRegex(LogLost, f"of another version .{named}.,"):
                    of(text.replace('"version":2,', other))
        for text in "[]", "7", "{", '{"version":2}', '{"version":2,"by":"n1","digest":"","lines":7}':
            with self.assertRaisesRegex(LogLost, "no record and no base"):
                Record.of(text)


class Etcd(Gateway):
    """An etcd in memory, of one leader's key and a log's. It counts the bytes of the greatest value."""

    def __init__(self) -> None:
        super().__init__([], 1, None)
        self.keys: dict[str, dict[str, str]] = {}
        self.revision = self.leader = 1
        self.greatest = 0

    def call(self, path: str, body: Json) -> Json:
        self.revision += 1
        if path == "/v3/kv/range":
            first, end = plain(body["key"]), plain(body["range_end"])
            least = int(body.get("min_mod_revision", 0))
            found = [it for key, it in sorted(self.keys.items()) if first <= key < end]
            found = [it for it in found if int(it["mod_revision"]) >= least]
            return {"kvs": found, "header": {"revision": str(self.revision)}}
        if any(it.get("create_revision") not in (str(self.leader), "0") for it in body["compare"]):
            return {"succeeded": False}
        for act in body["success"]:
            for put in [act["request_put"]] if "request_put" in act else []:
                self.greatest = max(self.greatest, len(base64.b64decode(put["value"])))
                self.keys[plain(put["key"])] = {**put, "mod_revision": str(self.revision)}
            for range_of in [act["request_delete_range"]] if "request_delete_range" in act else []:
                first, end = plain(range_of["key"]), plain(range_of["range_end"])
                self.keys = {key: it for key, it in self.keys.items() if not first <= key < end}
        return {"succeeded": True}


def plain(key: str) -> str:
    return base64.b64decode(key).decode()


class Pieces(unittest.TestCase):
    def test_a_dump_in_pieces(self) -> None:
        # (numbers that don't get smaller by being compressed)
        dice = random.Random(1)
        bases = [Base(at, f"d{at}", [f"{dice.getrandbits(4000)}" for _ in range(20)]) for at in (5, 9, 12)]
        etcd, token = Etcd(), Token(1)
        log, other, late = (EtcdLog(["http://it"], "shop", it, 3) for it in ("n1", "n2", "n3"))
        log.gateway = other.gateway = late.gateway = etcd
        with mock.patch("covetrivet.etcd.PIECE", 1000):
            self.assertIsNone(other.base(-1))
            for at in range(9):
                self.assertTrue(log.append(at, Record("n1", "", ["count"]), token))
            self.assertTrue(log.compact(bases[0], token))
            self.assertEqual([other.base(-1), other.base(4), other.base(5)], [bases[0], bases[0], None])
            self.assertIsNone(late.base(5))
            self.assertTrue(log.compact(bases[1], token))
            self.assertEqual([other.base(5), other.base(9)], [bases[1], None])
            # The records before it are gone, and the pieces of the one before.
            over = "shop/log/", "shop/base/0000000000000005"
            self.assertFalse([it for it in etcd.keys if it.startswith(over)])
            # One that leads no more puts nothing in its place.
            self.assertFalse(log.compact(bases[2], Token(2)))
            self.assertEqual([other.base(5), other.base(9)], [bases[1], None])
        self.assertLessEqual(etcd.greatest, 1000)
        self.assertGreater(len(etcd.keys), 10)
        # A piece that lacks is told.
        del etcd.keys["shop/base/0000000000000009/000003"]
        with self.assertRaisesRegex(LogLost, "shop/base isn't the base of a log"):
            other.base(-1)

    def test_a_log_below_another_one(self) -> None:
        # (nothing makes such a one any more)
        etcd, below, token = Etcd(), EtcdLog(["http://it"], "shop/log", "n1", 3), Token(1)
        log = EtcdLog(["http://it"], "shop", "n1", 3)
        log.gateway = below.gateway = etcd
        self.assertTrue(log.append(0, Record("n1", "", ["count"]), token))
        self.assertTrue(below.append(0, Record("n1", "", ["depth"]), token))
        self.assertTrue(below.compact(Base(1, "d1", ["keep 5"]), token))
        etcd.keys["shop/log/0x"] = {"key": coded("shop/log/0x"), "value": "", "mod_revision": "1"}
        self.assertEqual(log.read(0), [(0, Record("n1", "", ["count"]))])
        self.assertEqual(log.read(1), [])

    def test_a_log_of_before(self) -> None:
        etcd, log = Etcd(), EtcdLog(["http://it"], "shop", "n1", 3)
        log.gateway = etcd
        text = '{"version":1,"place":7,"digest":"d0","lines":["rows 8"]}'
        value = base64.b64encode(zlib.compress(text.encode())).decode()
        name = base64.b64encode(b"shop/base").decode()
        etcd.keys["shop/base"] = {"key": name, "value": value, "mod_revision": "1"}
        with self.assertRaisesRegex(LogLost, "of another version .1."):
            log.base(-1)


class Full(unittest.TestCase):
    """An etcd whose database has all the room that it may have, as its gateway says it."""

    def test_nospace(self) -> None:
        said = {"error": "etcdserver: mvcc: database space exceeded", "code": 8}
        with answering(429, said) as address:
            log = EtcdLog([address], "shop", "n1", 3)
            with self.assertRaisesRegex(LogFull, "NOSPACE"):
                log.lead()
            with self.assertRaisesRegex(LogFull, "NOSPACE"):
                log.append(0, Record("n1", "", ["count"]), Token(1))
            log.close()

    def test_other_faults(self) -> None:
        with answering(503, {"error": "etcdserver: no leader", "code": 14}) as address:
            log = EtcdLog([address], "shop", "n1", 3)
            with self.assertRaises(InDoubt) as caught:
                log.lead()
            self.assertNotIsInstance(caught.exception, LogFull)
            log.close()


@contextlib.contextmanager
def answering(status: int, said: Json) -> Iterator[str]:
    """Has a gateway that answers each request so. Yields its address."""

    class Answer(http.server.BaseHTTPRequestHandler):
        protocol_version = "HTTP/1.1"

        def do_POST(self) -> None:
            self.rfile.read(int(self.headers["Content-Length"]))
            text = json.dumps(said).encode()
            self.send_response(status)
            self.send_header("Content-Length", str(len(text)))
            self.end_headers()
            self.wfile.write(text)

        def log_message(self, format: str, *words: object) -> None:
            """Nothing is written down."""

    server = http.server.ThreadingHTTPServer(("127.0.0.1", 0), Answer)
    server.daemon_threads = True
    threading.Thread(target=server.serve_forever, daemon=True).start()
    try:
        yield f"http://127.0.0.1:{server.server_port}"
    finally:
        server.shutdown()
        server.server_close()


class Processes(unittest.TestCase):
    """What a node makes of its server's lines."""

    def test_lines_of_a_term(self) -> None:
        log = MemoryLog(Store(), "n1")
        it = NodeProcess(log, "n1", HEAD)
        it.take([b"submit 1 5 6", b"# leads 7", b"# leads 8\t", b"\xff"])
        it.take([b"count", b"# leads 9", b"# leads 10", b"depth"])
        it.take([b"drain"])
        asked = [it.member.asked.get_nowait() for _ in range(3)]
        self.assertEqual(asked, [(7, ["# leads 8\t", "\xff"]), (10, ["depth"]), (10, ["drain"])])
        self.assertTrue(it.member.asked.empty())


class Commands(unittest.TestCase):
    def test_wrong_words(self) -> None:
        good = {"--name": "n1", "--socket": "/nowhere/it", "--head": "/nowhere/head"}
        good["--etcd"] = "http://127.0.0.1:1"
        wanted: list[tuple[dict[str, str], int]] = [
            ({}, 66),
            ({"--head": "/dev/null"}, 73),
            ({"--etcd": "127.0.0.1:2379"}, 64),
            ({"--etcd": "http://127.0.0.1:1,ftp://it"}, 64),
            ({"--prefix": "it/"}, 64),
            ({"--prefix": "shop/log"}, 64),
            ({"--prefix": "shop/base/it"}, 64),
            ({"--head": "/dev/null", "--prefix": "log/shop"}, 73),
            ({"--head": "/dev/null", "--mode": "9"}, 64),
            ({"--head": "/dev/null", "--journal": "/nowhere/it"}, 64),
            ({"--lease": "0"}, 64),
            ({"--dump": "0"}, 64),
            ({"--name": "two words"}, 64),
            ({"--ca": "/nowhere/ca"}, 66),
        ]
        for changed, status in wanted:
            words = [it for pair in {**good, **changed}.items() for it in pair]
            command = [sys.executable, "-m", "covetrivet", "node", *words]
            it = subprocess.run(command, capture_output=True, text=True, check=False)
            with self.subTest(changed):
                self.assertEqual((it.returncode, it.stdout), (status, ""))
                self.assertNotIn("Traceback", it.stderr)


if __name__ == "__main__":
    unittest.main()
