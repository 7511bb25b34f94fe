"""A shared log that etcd keeps, by its JSON gateway.

Its keys, behind a prefix: `leader`, which is bound to the leader's lease; `log/PLACE`; `base`, without
its lines; and `base/PLACE/NUMBER`, which has a piece of them. Each change is a transaction that compares the
revision in which this leader's key was created. So one that leads no more changes nothing.
"""
from __future__ import annotations

import base64
import contextlib
import http.client
import itertools
import json
import re
import ssl
import threading
import time
import zlib
from collections.abc import Sequence
from typing import Any
from urllib.parse import urlsplit

from covetrivet.shared_log import Base, InDoubt, LogFull, LogLost, Record, Token

RECORDS_AT_ONCE = 100
# A request has at most 1.5 MiB (etcd's --max-request-bytes). Dumps are compressed, and put in such pieces.
PIECE = 1 << 20
# What etcd says where its database has all the room that it may have.
NO_SPACE = "database space exceeded"
Json = dict[str, Any]


def coded(text: str | bytes) -> str:
    return base64.b64encode(text.encode() if isinstance(text, str) else text).decode()


def unpacked(pieces: Sequence[Json]) -> str:
    """Returns the text of which these keys have the pieces, compressed."""
    return zlib.decompress(b"".join(base64.b64decode(it["value"]) for it in pieces)).decode()


class Gateway:
    """Requests to etcd, one at a time, by a connection that is kept. After a fault the next one goes to the
    next of the members.
    """

    def __init__(self, members: Sequence[str], seconds: float, trust: ssl.SSLContext | None) -> None:
        self.members, self.seconds, self.trust = members, seconds, trust
        self.at = 0
        self.connection: http.client.HTTPConnection | None = None

    def connected(self) -> http.client.HTTPConnection:
        if not self.connection:
            to = urlsplit(self.members[self.at % len(self.members)])
            host, port = to.hostname or "127.0.0.1", to.port or 2379
            if to.scheme == "https":
                self.connection = http.client.HTTPSConnection(
                    host, port, timeout=self.seconds, context=self.trust
                )
            else:
                self.connection = http.client.HTTPConnection(host, port, timeout=self.seconds)
        return self.connection

    def call(self, path: str, body: Json) -> Json:
        """Returns the answer. InDoubt where none comes, or it is that of a fault."""
        with self.doubted():
            response = self.asked(path, body)
            said = json.loads(response.read().split(b"\n")[0] or b"{}")
            if response.status != 200:
                why = f"status {response.status}: {said.get('error')}"
                if NO_SPACE in why:
                    raise LogFull(f"etcd: {why} (NOSPACE)")
                raise http.client.HTTPException(why)
            return dict(said)

    def wait(self, body: Json, seconds: float) -> None:
        """Waits until a watch tells anything, for so many seconds at most."""
        with self.doubted():
            response = self.asked("/v3/watch", body)
            # (the first line says that it watches)
            response.readline()
            connection = self.connected()
            if connection.sock:
                connection.sock.settimeout(seconds)
            with contextlib.suppress(TimeoutError):
                response.readline()
        self.close()

    def asked(self, path: str, body: Json) -> http.client.HTTPResponse:
        connection = self.connected()
        connection.request("POST", path, json.dumps(body))
        return connection.getresponse()

    @contextlib.contextmanager
    def doubted(self) -> Any:
        try:
            yield
        except (OSError, http.client.HTTPException, ValueError) as fault:
            self.close()
            self.at += 1
            raise InDoubt(f"etcd: {fault!r}") from fault

    def close(self) -> None:
        if self.connection:
            self.connection.close()
            self.connection = None


class EtcdLog:
    """The log under a prefix. `who` is this node's name, and a lease has so many seconds."""

    def __init__(
        self, members: Sequence[str], prefix: str, who: str, lease: int, trust: ssl.SSLContext | None = None
    ) -> None:
        self.prefix, self.who, self.seconds = f"{prefix}/", who, lease
        self.places = re.compile(re.escape(f"{prefix}/log/") + r"(\d{16})")
        self.gateway = Gateway(members, lease, trust)
        self.keeping = Gateway(members, lease / 3, trust)
        # the revision of the last read, and the place and the revision of the base that was read last
        self.seen = 0
        self.base_place, self.base_revision = -1, 0

    def key(self, name: str) -> str:
        return coded(self.prefix + name)

    def place(self, place: int) -> str:
        return self.key(f"log/{place:016d}")

    def piece(self, place: int, number: int = 0) -> str:
        return self.key(f"base/{place:016d}/{number:06d}")

    def mine(self, token: Token) -> Json:
        """Returns the comparison that this node leads still."""
        return {"key": self.key("leader"), "target": "CREATE", "create_revision": str(token.term)}

    def is_done(self, compare: list[Json], acts: list[Json]) -> bool:
        said = self.gateway.call("/v3/kv/txn", {"compare": compare, "success": acts})
        return said.get("succeeded") is True

    # ---- who leads

    def leader(self) -> str | None:
        found = self.gateway.call("/v3/kv/range", {"key": self.key("leader")}).get("kvs")
        return base64.b64decode(found[0]["value"]).decode() if found else None

    def lead(self) -> Token | None:
        lease = str(self.gateway.call("/v3/lease/grant", {"TTL": self.seconds})["ID"])
        put = {"request_put": {"key": self.key("leader"), "value": coded(self.who), "lease": lease}}
        free = {"key": self.key("leader"), "target": "CREATE", "create_revision": "0"}
        said = self.gateway.call("/v3/kv/txn", {"compare": [free], "success": [put]})
        if said.get("succeeded") is not True:
            self.revoke(lease)
            return None
        token = Token(int(said["header"]["revision"]), lease)
        threading.Thread(target=self.keep, args=(token,), daemon=True).start()
        return token

    def keep(self, token: Token) -> None:
        """Has the lease last as long as the node leads. It is lost where etcd says so, or says nothing."""
        kept = time.monotonic()
        while not token.is_lost and time.monotonic() < kept + self.seconds:
            time.sleep(self.seconds / 6)
            asked = time.monotonic()
            with contextlib.suppress(InDoubt):
                said = self.keeping.call("/v3/lease/keepalive", {"ID": token.lease})
                if not int(said.get("result", {}).get("TTL", 0)):
                    break
                kept = asked
        token.is_lost = True

    def resign(self, token: Token) -> None:
        token.is_lost = True
        self.revoke(token.lease)

    def revoke(self, lease: str) -> None:
        with contextlib.suppress(InDoubt):
            self.gateway.call("/v3/lease/revoke", {"ID": lease})

    # ---- the log

    def append(self, place: int, record: Record, token: Token) -> bool:
        free = {"key": self.place(place), "target": "CREATE", "create_revision": "0"}
        put = {"request_put": {"key": self.place(place), "value": coded(record.text())}}
        return self.is_done([self.mine(token), free], [put])

    def read(self, place: int) -> list[tuple[int, Record]]:
        # (before 0.25.0 another log could be put below this one: its keys are no numbers)
        asked = {"key": self.place(place), "range_end": self.key("log/:"), "limit": RECORDS_AT_ONCE}
        said = self.gateway.call("/v3/kv/range", asked)
        self.seen = int(said["header"]["revision"])
        names = [(base64.b64decode(it["key"]).decode(), it["value"]) for it in said.get("kvs", [])]
        found = [(self.places.fullmatch(name), value) for name, value in names]
        return [(int(at[1]), Record.of(base64.b64decode(value).decode())) for at, value in found if at]

    def base(self, behind: int) -> Base | None:
        # (one that was read already is not sent again)
        newer = self.base_revision + 1 if behind >= self.base_place else 0
        asked = {"key": self.key("base"), "range_end": self.key("base0"), "min_mod_revision": newer}
        found = {it["key"]: it for it in self.gateway.call("/v3/kv/range", asked).get("kvs", [])}
        if self.key("base") not in found:
            return None
        try:
            base = Base.of(unpacked([found[self.key("base")]]))
            names = (self.piece(base.place, it) for it in itertools.count())
            lines = unpacked([found[it] for it in itertools.takewhile(found.__contains__, names)])
        except zlib.error as fault:
            raise LogLost(f"{self.prefix}base isn't the base of a log: {fault}") from fault
        self.base_place, self.base_revision = base.place, int(found[self.key("base")]["mod_revision"])
        return base._replace(lines=lines.split("\n")) if base.place > behind else None

    def compact(self, base: Base, token: Token) -> bool:
        packed = zlib.compress("\n".join(base.lines).encode())
        for number, at in enumerate(range(0, len(packed), PIECE)):
            name, piece = self.piece(base.place, number), packed[at : at + PIECE]
            if not self.is_done([self.mine(token)], [{"request_put": {"key": name, "value": coded(piece)}}]):
                return False
        first = zlib.compress(base._replace(lines=[]).text().encode())
        put = {"request_put": {"key": self.key("base"), "value": coded(first)}}
        records = {"key": self.place(0), "range_end": self.place(base.place)}
        pieces = {"key": self.piece(0), "range_end": self.piece(base.place)}
        deletes = [{"request_delete_range": it} for it in (records, pieces)]
        return self.is_done([self.mine(token)], [put, *deletes])

    def watch(self, seconds: float) -> None:
        behind = coded(self.prefix[:-1] + "0")
        asked = {"key": self.key(""), "range_end": behind, "start_revision": self.seen + 1}
        gateway = Gateway(self.gateway.members, self.seconds, self.gateway.trust)
        gateway.at = self.gateway.at
        try:
            gateway.wait({"create_request": asked}, seconds)
        finally:
            gateway.close()

    def close(self) -> None:
        self.gateway.close()
        self.keeping.close()
