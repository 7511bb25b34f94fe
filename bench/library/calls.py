"""The calls of the Python package, timed as tp_bench times those of the manager. Prints NAME K NANOSECONDS CALLS."""
import sys
import time
from pathlib import Path

sys.path.insert(0, str(Path(__file__).resolve().parents[2] / "clients/python"))
from covetrivet.library import REPLIES, Draft, Manager  # noqa: E402


def timed(name, k, calls, work):
    since = time.monotonic_ns()
    for n in range(calls):
        work(n)
    print(name, k, time.monotonic_ns() - since, calls)


def turns(server, bare):
    def turn(_):
        work = server.claim(1)
        work.commit(*([] if bare else [Draft(REPLIES, *work.words)]))

    return turn


for bare in (True, False):
    with Manager(parts=2, attempts=7) as manager:
        client, server = manager.open(), manager.open()
        if bare:
            timed("submit", 0, 256, lambda n: client.submit(1, 0, n))
            timed("read_waiting", 0, 256, client.read)
        else:
            for n in range(256):
                client.submit(1, 0, n)
        for k in range(16):
            timed("turn_bare" if bare else "turn", 16 * k, 16, turns(server, bare))
