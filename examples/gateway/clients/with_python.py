#!/usr/bin/python3
"""with_python.py PORT: the gateway's rules as python3-stomp of Debian sees them."""
from __future__ import annotations

import queue
import sys

import stomp


class Heard(stomp.ConnectionListener):
    """What a connection is told."""

    def __init__(self):
        self.messages, self.receipts, self.errors = queue.Queue(), queue.Queue(), queue.Queue()

    def on_message(self, frame):
        self.messages.put(frame)

    def on_receipt(self, frame):
        self.receipts.put(frame.headers)

    def on_error(self, frame):
        self.errors.put(frame.headers["message"])


def connected(port, kind=stomp.Connection12):
    connection, heard = kind([("127.0.0.1", port)]), Heard()
    connection.set_listener("", heard)
    connection.connect("user", "word", wait=True)
    return connection, heard


def main(port):
    shop, told = connected(port)
    shop.send("/queue/orders", "an order: 2 books", receipt="one", headers={"x-shop": "a:b"})
    root = told.receipts.get(timeout=5)["element"]
    clerk, work = connected(port)
    clerk.subscribe("/queue/orders", id="orders", ack="client-individual")
    order = work.messages.get(timeout=5)
    print(order.body, "| x-shop", order.headers["x-shop"], "| attempt", order.headers["attempt"])
    clerk.begin("t")
    clerk.ack(order.headers["ack"], transaction="t")
    clerk.send("/queue/bills", "a bill", transaction="t")
    clerk.send("/reply", "accepted", transaction="t")
    clerk.commit("t")
    bank, bills = connected(port, stomp.Connection11)
    bank.subscribe("/queue/bills", id="bills", ack="client-individual")
    bill = bills.messages.get(timeout=5)
    print(bill.body, "| of the same request:", bill.headers["root"] == root)
    bank.ack(bill.headers["message-id"], "bills")
    shop.subscribe(f"/reply/{root}", id="reply", ack="auto")
    print(told.messages.get(timeout=5).body)

    shop.send("/queue/orders", "poison")
    for attempt in 1, 2, 3:
        bad = work.messages.get(timeout=5)
        print(bad.body, "| attempt", bad.headers["attempt"])
        clerk.nack(bad.headers["ack"])
    shop.subscribe("/dlq", id="dead", ack="client-individual")
    dead = told.messages.get(timeout=5)
    print("dead:", dead.body)
    shop.ack(dead.headers["ack"])
    clerk.ack(order.headers["ack"])
    print("error:", work.errors.get(timeout=5))


main(int(sys.argv[1]))
