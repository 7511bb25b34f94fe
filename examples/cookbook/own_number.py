#!/usr/bin/env python3
"""An application with a database of its own: an order's number is written in the transaction that makes the
order, and a reply's in the one that uses it.

The application is killed by SIGKILL behind the first of three sends, and with a reply in hand that it hasn't
written down. The session has a journal.
"""
from __future__ import annotations

import os
import signal
import sqlite3
import subprocess
import sys
import tempfile
from pathlib import Path

# (the package need not be installed: it is the checkout's)
sys.path.insert(0, str(Path(__file__).resolve().parents[2] / "clients/python"))
from covetrivet import Client, Draft, Session  # noqa: E402

HEAD = ["worker clerk 1", "register shop"]
REPLIES = 15
TABLES = """
    create table if not exists customers (id integer primary key, owes integer);
    create table if not exists orders (number integer primary key, customer integer, price integer);
    create table if not exists replies (number integer primary key, customer integer, paid integer);
"""


def place(db: sqlite3.Connection, customer: int, price: int) -> None:
    """Writes an order down, with all else that it changes. (The next number is one more than the last.)"""
    with db:
        db.execute("insert or ignore into customers values (?, 0)", (customer,))
        db.execute("update customers set owes = owes + ? where id = ?", (price, customer))
        db.execute("insert into orders (customer, price) values (?, ?)", (customer, price))


def send_all(db: sqlite3.Connection, shop: Client) -> None:
    """Sends what isn't sent: the number of a send is the order's."""
    found = "select number, customer, price from orders where number > ? order by number"
    for number, customer, price in db.execute(found, (shop.sent,)).fetchall():
        print("sends", number, flush=True)
        assert shop.send((customer, price)).number == number


def receive_all(db: sqlite3.Connection, shop: Client) -> None:
    """Writes each reply down once, with all that it changes."""
    (written,) = db.execute("select count(*) from replies").fetchone()
    reply = shop.receive_again() if written < shop.received else shop.receive()
    while reply:
        customer, paid, *_ = reply.words
        with db:
            db.execute("insert into replies values (?, ?, ?)", (reply.number, customer, paid))
            db.execute("update customers set owes = owes - ? where id = ?", (paid, customer))
        reply = shop.receive()


def work_off(session: Session) -> None:
    while work := session.last_work("clerk").work or session.claim("clerk"):
        work.commit(Draft(REPLIES, *work.words))


def life(folder: str, number: int) -> None:
    """The first life is killed behind a send, and the second one behind a receive."""
    db = sqlite3.connect(f"{folder}/orders.db")
    db.executescript(TABLES)
    with Session.open(f"{folder}/journal", HEAD) as session:
        shop = Client(session, "shop")
        if number == 1:
            for customer, price in ((7, 30), (8, 40), (7, 50)):
                place(db, customer, price)
            shop.send((7, 30))
            os.kill(os.getpid(), signal.SIGKILL)
        send_all(db, shop)
        work_off(session)
        if number == 2:
            shop.receive()
            os.kill(os.getpid(), signal.SIGKILL)
        receive_all(db, shop)
        print("sent", shop.sent, "received", shop.received, session.count())
    print("replies:", *db.execute("select * from replies order by number"))
    print("customers owe:", *db.execute("select * from customers order by id"))


def main() -> None:
    if len(sys.argv) > 1:
        life(sys.argv[1], int(sys.argv[2]))
        return
    with tempfile.TemporaryDirectory() as folder:
        for number in (1, 2, 3):
            print("life", number, flush=True)
            subprocess.run([sys.executable, __file__, folder, str(number)])


if __name__ == "__main__":
    main()
