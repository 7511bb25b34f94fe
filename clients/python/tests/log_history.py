"""All that was ever written in a log, though nodes delete what is before a dump: etcd keeps what was deleted
or written anew, and PostgreSQL has triggers that do.
"""
from __future__ import annotations

import base64
import contextlib
import http.client
import json
from collections.abc import Iterator, Sequence
from typing import Any, Protocol

from covetrivet.etcd import EtcdLog, Gateway, coded
from covetrivet.postgres import Connection
from covetrivet.shared_log import InDoubt, Record
from callers import Wrong
from machines import comes

SECONDS_TO_TELL = 20
KEEPING = (
    "create table history (number bigserial, what text, place bigint, text text)",
    "create function keep_record() returns trigger language plpgsql as $$ begin"
    " insert into history (what, place, text) values ('record', new.place, new.record); return new; end $$",
    "create function keep_base() returns trigger language plpgsql as $$ begin"
    " insert into history (what, place) values ('base', new.place); return new; end $$",
    "create trigger keeping after insert or update on covetrivet_log"
    " for each row execute function keep_record()",
    "create trigger keeping after insert or update on covetrivet_base"
    " for each row execute function keep_base()",
)


class History(Protocol):
    """What a log had at any time."""

    def written(self) -> tuple[list[tuple[int, Record]], int]:
        """Returns all records with their places, in the order in which they were written, and how many dumps
        were. InDoubt where that can't be known now.
        """


class EtcdHistory:
    """The history of a log under a prefix, of members that weren't told to forget anything."""

    def __init__(self, members: Sequence[str], prefix: str) -> None:
        self.log = EtcdLog(members, prefix, "reader", SECONDS_TO_TELL)

    def written(self) -> tuple[list[tuple[int, Record]], int]:
        # (the first base is the head's)
        records, dumps = list[tuple[int, Record]](), -1
        for key, value in self.puts():
            name = key.removeprefix(self.log.prefix)
            if name.startswith("log/"):
                records.append((int(name[4:]), Record.of(value.decode())))
            dumps += name == "base"
        return records, dumps

    def puts(self) -> Iterator[tuple[str, bytes]]:
        """Yields each key that was written, with its value: a watch from the first revision tells all."""
        key = self.log.key("")
        now = int(self.log.gateway.call("/v3/kv/range", {"key": key})["header"]["revision"])
        gateway = Gateway(self.log.gateway.members, SECONDS_TO_TELL, None)
        gateway.at = self.log.gateway.at
        asked = {"key": key, "range_end": coded(self.log.prefix[:-1] + "0"), "start_revision": "1"}
        with gateway.doubted(), contextlib.closing(gateway):
            response, at = gateway.asked("/v3/watch", {"create_request": asked}), 0
            while at < now:
                for event in told_by(response):
                    at = int(event["kv"]["mod_revision"])
                    if event.get("type", "PUT") == "PUT":
                        name, value = (base64.b64decode(event["kv"][it]) for it in ("key", "value"))
                        yield name.decode(), value


def told_by(response: http.client.HTTPResponse) -> list[Any]:
    """Returns the events that a watch tells next."""
    said = json.loads(response.readline())
    if "result" not in said or said["result"].get("canceled"):
        raise ValueError(f"the watch is cancelled: {said}")
    return list(said["result"].get("events", ()))


class PostgresHistory:
    """The history of the one log of a server, from now on."""

    def __init__(self, where: str) -> None:
        self.connection = Connection(where, SECONDS_TO_TELL)
        for it in KEEPING:
            self.connection.do(it)

    def written(self) -> tuple[list[tuple[int, Record]], int]:
        found = self.connection.do("select what, place, text from history order by number")
        records = [(int(place), Record.of(text)) for what, place, text in found if what == "record"]
        return records, len(found) - len(records)


def all_written(history: History) -> tuple[list[Record], int]:
    """Returns the records of a log by their places, and how many dumps there were. Wrong where two were at
    one place, or none at an earlier one.
    """
    told: list[tuple[list[tuple[int, Record]], int]] = []

    def is_told() -> bool:
        with contextlib.suppress(InDoubt):
            told.append(history.written())
        return bool(told)

    if not comes(is_told, SECONDS_TO_TELL):
        raise Wrong("the log can't be asked what was written in it")
    (records, dumps), found = told[0], dict[int, Record]()
    for place, record in records:
        if found.setdefault(place, record) != record:
            raise Wrong(f"there were two records at {place}")
    if sorted(found) != list(range(len(found))):
        raise Wrong(f"there never was a record {min({*range(len(found))} - {*found})}")
    return [found[it] for it in range(len(found))], dumps
