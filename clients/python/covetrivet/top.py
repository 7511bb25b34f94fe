"""`covetrivet top`: what a server's session has, and what the server counts, again and again."""
from __future__ import annotations

import re
import sys
import time
from collections.abc import Iterable, Iterator, Sequence

from covetrivet.answers import Counts, Depth
from covetrivet.call import NO_SERVER
from covetrivet.remote import connect, connected
from covetrivet.faults import Disconnected, SessionFault
from covetrivet.options import watching
from covetrivet.session import Session

STATUSES = "waiting", "held", "consumed", "parked", "killed"
SHOWN_PARKED, SHOWN_CLIENTS, SECONDS = 10, 10, 10
Metrics = dict[str, float]


def metrics_of(path: str, page: str = "/metrics") -> Metrics:
    """Returns a server's metrics by their names, with their labels. Disconnected where none can be had."""
    with connected(path) as it:
        it.settimeout(SECONDS)
        try:
            it.sendall(f"GET {page} HTTP/1.0\r\n\r\n".encode("ascii"))
            text = b"".join(iter(lambda: it.recv(65536), b"")).decode("ascii")
        except OSError as fault:
            raise Disconnected(f"{path} tells no metrics: {fault}") from fault
    found = re.findall(r"(?m)^covetrivet_(.+) (\S+)$", text)
    if not found:
        raise Disconnected(f"{path} tells no metrics")
    return {name: float(value) for name, value in found}


def of_session(counts: Counts, before: Counts | None, seconds: float, parked: Sequence[int]) -> Iterator[str]:
    """Yields the lines about the elements, and how many a second changed their status to each."""
    for it in STATUSES:
        now, rate = getattr(counts, it), ""
        if before and seconds > 0:
            rate = f"{(now - getattr(before, it)) / seconds:+12.1f}/s"
        yield f"{it:10}{now:10}{rate}"
    if parked:
        more = " .." if len(parked) > SHOWN_PARKED else ""
        yield f"parked: {' '.join(map(str, parked[:SHOWN_PARKED]))}{more}"


def of_stages(depths: Sequence[Depth], server: Metrics) -> Iterator[str]:
    """Yields a table of the stages that have any elements, with how old the oldest is that waits."""
    if depths:
        more = f"{'oldest':>12}" if server else ""
        yield f"{'stage':10}{'waiting':>10}{'held':>10}{'parked':>10}{more}"
    for it in depths:
        age = server.get(f'stage_oldest_seconds{{stage="{it.stage}"}}')
        oldest = "" if age is None else f"{age:10.1f} s"
        yield f"{it.stage:<10}{it.waiting:10}{it.held:10}{it.parked:10}{oldest}"


def of_server(now: Metrics, before: Metrics | None, seconds: float) -> Iterator[str]:
    """Yields the lines about the server."""
    count, total = "answer_seconds_count", "answer_seconds_sum"
    was = before or {}
    lines, spent = now[count] - was.get(count, 0), now[total] - was.get(total, 0)
    rate = f", {lines / seconds:.0f} lines a second" if before and seconds > 0 else f", {lines:.0f} lines"
    mean = f", {spent / lines * 1e6:.0f} us each" if lines else ""
    yield f"connections {now['connections']:.0f}, lines in flight {now['lines_in_flight']:.0f}{rate}{mean}"
    refused = [(it[16:-2], int(value)) for it, value in now.items() if it.startswith("refusals_total{")]
    if refused:
        yield "refused: " + ", ".join(f"{why.partition(chr(34))[2]} {many}" for why, many in refused)
    for it, age in now.items():
        if it.startswith("unit_open_seconds{"):
            yield f"in hand for {age:.1f} s: {it.split(chr(34))[1]}"


def of_clients(now: Metrics, before: Metrics | None, seconds: float) -> Iterator[str]:
    """Yields a line about each client, those first that have sent most since."""
    name, was = "client_lines_total", before or {}
    sent = {it: many - was.get(it, 0) for it, many in now.items() if it.startswith(f"{name}{{")}
    for it in sorted(sent, key=lambda it: -sent[it])[:SHOWN_CLIENTS]:
        rate = f", {sent[it] / seconds:.0f} a second" if before and seconds > 0 else ""
        rest = it.removeprefix(name)
        waits, unread = now[f"client_lines_in_flight{rest}"], now[f"client_unread_bytes{rest}"]
        _, number, _, who, _ = rest.split('"')
        shown = f"client {number} ({who}): {now[it]:.0f} lines{rate}, {waits:.0f} in flight"
        yield f"{shown}, {unread:.0f} bytes unread" if unread else shown


def show(lines: Iterable[str], again: bool) -> None:
    if again and sys.stdout.isatty():
        print("\033[H\033[J", end="")
    print("\n".join(lines), flush=True)


def watch(session: Session, metrics: str | None, seconds: float | None, has_clients: bool) -> None:
    counted: Counts | None = None
    heard: Metrics | None = None
    clients: Metrics | None = None
    then = time.monotonic()
    while True:
        counts, depths, parked = session.count(), session.depth(), session.errors()
        now = metrics_of(metrics) if metrics else None
        at = time.monotonic()
        lines = [*of_session(counts, counted, at - then, parked), *of_stages(depths, now or {})]
        if now:
            lines += of_server(now, heard, at - then)
        if metrics and has_clients:
            before, clients = clients, metrics_of(metrics, "/clients")
            lines += of_clients(clients, before, at - then)
        show(lines, seconds is not None)
        if seconds is None:
            return
        counted, heard, then = counts, now, at
        time.sleep(seconds)


def top(words: Sequence[str]) -> int:
    """Returns the exit status: 0 after it was interrupted or shown once, 69 without a server."""
    options = watching(words)
    try:
        with connect(options.socket, SECONDS) as session:
            watch(session, options.metrics, options.seconds, options.has_clients)
    except KeyboardInterrupt:
        return 0
    except (SessionFault, TimeoutError) as why:
        print(f"covetrivet: {why}", file=sys.stderr)
        return NO_SERVER
    return 0
