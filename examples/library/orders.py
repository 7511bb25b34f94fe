#!/usr/bin/env python3
"""The order system of orders.c in Python threads."""
from __future__ import annotations

import sys
import threading
import time
from pathlib import Path

# (the package need not be installed: it is the checkout's)
sys.path.insert(0, str(Path(__file__).resolve().parents[2] / "clients/python"))
from covetrivet.library import REPLIES, Caller, Draft, Manager  # noqa: E402

ORDERS, MOST = 200, 70


def serve(me: Caller, stage: int, closing: threading.Event) -> None:
    while not closing.is_set():
        work = me.claim_next(stage)
        if work is None:
            time.sleep(0)
            continue
        with work:
            number, quantity, price, shipped = work.words
            if stage == 1:
                work.commit(Draft(2, number, quantity, quantity * (10 + number % 5)))
            elif stage == 3:
                work.commit(Draft(REPLIES, number, quantity, price, 1))
            elif price <= MOST:
                work.commit(Draft(3, number, quantity, price))


def submit_and_collect(client: Caller) -> tuple[int, int]:
    waiting = {client.submit(1, n, 1 + n % 7): n for n in range(ORDERS)}
    shipped = declined = 0
    while waiting:
        for root, n in list(waiting.items()):
            reply = client.collect_next(root)
            if reply is not None:
                assert (reply.words[0], reply.words[3]) == (n, 1)
                del waiting[root]
                shipped += 1
        parked = client.next_error()
        if parked is not None:
            del waiting[client.read(parked).root]
            client.kill(parked)
            declined += 1
        time.sleep(0)
    return shipped, declined


def main() -> None:
    with Manager(parts=4) as manager:
        closing = threading.Event()
        client, servers = manager.open(), [manager.open() for _ in range(3)]
        served = enumerate(servers, 1)
        threads = [threading.Thread(target=serve, args=(it, stage, closing)) for stage, it in served]
        for it in threads:
            it.start()
        shipped, declined = submit_and_collect(client)
        closing.set()
        for it in threads:
            it.join()
        for caller in (client, *servers):
            manager.hand_back(caller)
        total = manager.account().total
    print(f"{ORDERS} orders: {shipped} shipped, {declined} declined")
    alive = f"waiting {total.waiting}, held {total.held}"
    print(f"{alive}, consumed {total.consumed}, parked {total.parked}, killed {total.killed}")


if __name__ == "__main__":
    main()
