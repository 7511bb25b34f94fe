"""A shared log that PostgreSQL keeps, by Debian's psycopg2.

Three tables have who leads, the records and the base, of each log by its name. Each change is one statement
that locks the leader's row, and finds it only where the term is this leader's still.

The server's clock is asked for nothing. A leader changes `until` again and again, and each node counts by its
own clock for how long that stands as it was.
"""
from __future__ import annotations

import contextlib
import importlib
import select
import threading
import time
from typing import Any

from covetrivet.shared_log import Base, InDoubt, LogFull, Record, Token

RECORDS_AT_ONCE = 100
# Its SQLSTATE.
DISK_FULL = "53100"
# What `until` is where nobody leads.
FREE = "-infinity"
TABLES = (
    "create table if not exists covetrivet_leader"
    " (log text primary key, term bigint not null, who text, until timestamptz not null)",
    "create table if not exists covetrivet_log"
    " (log text, place bigint, record text not null, primary key (log, place))",
    "create table if not exists covetrivet_base"
    " (log text primary key, place bigint not null, base text not null)",
)
MINE = "with mine as (select log from covetrivet_leader where log = %s and term = %s for share)"
LATER = "greatest(clock_timestamp() + %s * interval '1 s', until + interval '1 microsecond')"
LEAD = (
    f"update covetrivet_leader set term = term + 1, who = %s, until = {LATER}"
    " where log = %s and term = %s and until = %s::timestamptz returning term"
)
KEEP = (
    f"update covetrivet_leader set until = {LATER} where log = %s and term = %s and until > '-infinity'"
)
APPEND = (
    f"{MINE}, put as (insert into covetrivet_log select log, %s, %s from mine"
    " on conflict do nothing returning place)"
    " select pg_notify('covetrivet', %s) from put"
)
COMPACT = (
    f"{MINE}, put as (insert into covetrivet_base select log, %s, %s from mine"
    " on conflict (log) do update set place = excluded.place, base = excluded.base returning place),"
    " gone as (delete from covetrivet_log using put where log = %s and covetrivet_log.place < put.place)"
    " select 1 from put"
)


class Connection:
    """A connection that is made anew after a fault. An answer that takes longer than so many seconds is one.
    """

    def __init__(self, where: str, seconds: float) -> None:
        # (typed as anything: the library has no types)
        self.library: Any = importlib.import_module("psycopg2")
        self.where, self.seconds = where, seconds
        self.open: Any = None
        self.library.extensions.set_wait_callback(self.wait)

    def wait(self, connection: Any) -> None:
        """Waits for the server's answer: the library asks this in place of waiting for ever."""
        until = time.monotonic() + self.seconds
        while (state := connection.poll()) != self.library.extensions.POLL_OK:
            reads = [connection] * (state == self.library.extensions.POLL_READ)
            writes = [connection] * (not reads)
            if not any(select.select(reads, writes, [], max(0.0, until - time.monotonic()))):
                raise self.library.OperationalError("no answer came in time")

    def begin(self) -> Any:
        if not self.open:
            it = self.library.connect(self.where, connect_timeout=max(2, int(self.seconds)))
            it.set_session(isolation_level="READ COMMITTED", autocommit=True)
            it.cursor().execute("set synchronous_commit = on")
            self.open = it
        return self.open

    def do(self, statement: str, *values: object) -> list[tuple[Any, ...]]:
        """Returns the rows that a statement answers; as many empty ones as it changed, where it has none."""
        with self.doubted():
            cursor = self.begin().cursor()
            cursor.execute(statement, values)
            return list(cursor.fetchall()) if cursor.description else [()] * cursor.rowcount

    def come(self, seconds: float) -> None:
        """Waits until it is notified, for so many seconds at most. The first time it begins to listen."""
        if not self.open:
            self.do("listen covetrivet")
            return
        with self.doubted():
            if not self.open.notifies:
                select.select([self.open], [], [], seconds)
                self.open.poll()
            self.open.notifies.clear()

    @contextlib.contextmanager
    def doubted(self) -> Any:
        try:
            yield
        except (self.library.Error, OSError) as fault:
            self.close()
            kind = LogFull if getattr(fault, "pgcode", None) == DISK_FULL else InDoubt
            raise kind(f"PostgreSQL: {' '.join(str(fault).split())}") from fault

    def close(self) -> None:
        it, self.open = self.open, None
        if it:
            with contextlib.suppress(self.library.Error, OSError):
                it.close()


class PostgresLog:
    """The log of this name. `who` is this node's name, and a lease has so many seconds."""

    def __init__(self, where: str, name: str, who: str, lease: float) -> None:
        self.where, self.name, self.who, self.seconds = where, name, who, lease
        self.main, self.listening = Connection(where, lease), Connection(where, lease)
        self.is_made = False
        # the term and `until` as they were seen last, and since when
        self.seen: tuple[object, ...] = ()
        self.since = 0.0

    def do(self, statement: str, *values: object) -> list[tuple[Any, ...]]:
        if not self.is_made:
            for it in TABLES:
                self.main.do(it)
            known = "insert into covetrivet_leader values (%s, 0, null, '-infinity') on conflict do nothing"
            self.main.do(known, self.name)
            self.is_made = True
        return self.main.do(statement, *values)

    # ---- who leads

    def leader(self) -> str | None:
        asked = "select term, until::text, who from covetrivet_leader where log = %s"
        *seen, who = self.do(asked, self.name)[0]
        if tuple(seen) != self.seen:
            self.seen, self.since = tuple(seen), time.monotonic()
        is_over = seen[1] == FREE or time.monotonic() > self.since + self.seconds
        return None if is_over else str(who)

    def lead(self) -> Token | None:
        if self.leader():
            return None
        found = self.do(LEAD, self.who, self.seconds, self.name, *self.seen)
        if not found:
            return None
        token = Token(int(found[0][0]))
        threading.Thread(target=self.keep, args=(token,), daemon=True).start()
        return token

    def keep(self, token: Token) -> None:
        """Has the lease last as long as the node leads. It is lost where the server says so, or nothing."""
        kept, keeping = time.monotonic(), Connection(self.where, self.seconds / 3)
        while not token.is_lost and time.monotonic() < kept + self.seconds:
            time.sleep(self.seconds / 6)
            asked = time.monotonic()
            with contextlib.suppress(InDoubt):
                if not keeping.do(KEEP, self.seconds, self.name, token.term):
                    break
                kept = asked
        token.is_lost = True
        keeping.close()

    def resign(self, token: Token) -> None:
        token.is_lost = True
        ends = "update covetrivet_leader set until = '-infinity' where log = %s and term = %s"
        with contextlib.suppress(InDoubt):
            self.do(ends, self.name, token.term)
            self.do("select pg_notify('covetrivet', %s)", self.name)

    # ---- the log

    def append(self, place: int, record: Record, token: Token) -> bool:
        return bool(self.do(APPEND, self.name, token.term, place, record.text(), self.name))

    def read(self, place: int) -> list[tuple[int, Record]]:
        asked = "select place, record from covetrivet_log where log = %s and place >= %s"
        found = self.do(f"{asked} order by place limit %s", self.name, place, RECORDS_AT_ONCE)
        return [(int(at), Record.of(text)) for at, text in found]

    def base(self, behind: int) -> Base | None:
        asked = "select base from covetrivet_base where log = %s and place > %s"
        found = self.do(asked, self.name, behind)
        return Base.of(found[0][0]) if found else None

    def compact(self, base: Base, token: Token) -> bool:
        return bool(self.do(COMPACT, self.name, token.term, base.place, base.text(), self.name))

    def watch(self, seconds: float) -> None:
        self.listening.come(seconds)

    def close(self) -> None:
        for it in (self.main, self.listening):
            it.close()
