#!/usr/bin/env python3
"""A shop of seven processes, each of which is killed again and again, while each order is replied to once.

The shop sends orders, cancels the last one, and receives replies. A clerk puts off what is for later, and a
mover brings it back when it is due. A bank is paid, and a packer packs what is express first. What can't be
done is a dead letter with its reason, which an editor replies to. The server has a journal.
"""
from __future__ import annotations

import os
import subprocess
import sys
import tempfile
import time
from collections import Counter
from contextlib import suppress
from pathlib import Path

# (the package need not be installed: it is the checkout's)
sys.path.insert(0, str(Path(__file__).resolve().parents[2] / "clients/python"))
from covetrivet import Client, Disconnected, Draft, Session, Work, Worker, connect, refusals  # noqa: E402

NEW, BANK, EXPRESS, USUAL, LATER, DEAD, REPLIES = 1, 2, 3, 4, 5, 14, 15
STAGES = {"clerk": NEW, "bank": BANK, "express": EXPRESS, "usual": USUAL, "mover": LATER, "editor": DEAD}
HEAD = ["limit 7", *(f"worker {name} {stage}" for name, stage in STAGES.items()), "register shop"]
PACKED, NO_SUCH_GOODS, TOO_DEAR = range(3)
PRICES, MONEY = {501: 30, 502: 40, 503: 5000}, 1000
# number, goods, whether it is express, and how many milliseconds it is put off: of the last one that is ever
ORDERS = [(it, 501 + it % 4, it % 3 == 0, it % 5 * 50) for it in range(40)] + [(40, 501, False, 10**12)]
# (an earlier life's last line came behind the first one of this, or what was taken was cancelled)
LATE = refusals.Busy, refusals.Other, refusals.Fenced, refusals.Lost, refusals.NotWaiting


def check(work: Work) -> list[Draft]:
    number, goods, express, put_off = work.words
    if goods not in PRICES:
        return [Draft(DEAD, number, NO_SUCH_GOODS)]
    due = int(time.time() * 1000) + put_off
    return [Draft(LATER, number, goods, express, due) if put_off else Draft(BANK, number, goods, express)]


def pay(work: Work) -> list[Draft]:
    number, goods, express, _ = work.words
    is_dear = PRICES[goods] > MONEY
    return [Draft(DEAD, number, TOO_DEAR) if is_dear else Draft(EXPRESS if express else USUAL, number)]


def pack(session: Session) -> None:
    left = session.last_work("express").work or session.last_work("usual").work
    if work := left or session.claim("express") or session.claim("usual", wait=1):
        work.commit(Draft(REPLIES, work.words[0], PACKED))


def move(session: Session) -> None:
    due = (it for it in session.all_waiting(LATER) if session.read(it).words[3] <= time.time() * 1000)
    while work := session.last_work("mover").work or next((session.take("mover", it) for it in due), None):
        work.commit(Draft(NEW, *work.words[:3]))
    time.sleep(0.02)


def order_all(session: Session, noted: Path) -> None:
    shop = Client(session, "shop")
    for order in ORDERS[shop.sent :]:
        shop.send(order)
    session.cancel(shop.last().element or 0)
    reply = shop.receive_again()
    while reply or shop.received < len(ORDERS) - 1:
        if reply:
            with noted.open("a") as file:
                print(reply.number, *reply.words[:2], file=file)
        reply = shop.receive(wait=5) if shop.received < len(ORDERS) - 1 else None


def life(role: str, folder: Path) -> None:
    acts = {"clerk": check, "bank": pay, "editor": lambda letter: [Draft(REPLIES, *letter.words)]}
    while True:
        with suppress(Disconnected, *LATE):
            if role in acts:
                Worker(lambda: connect(folder / "socket"), role, acts[role]).run()
            with connect(folder / "socket") as session:
                if role == "shop":
                    return order_all(session, folder / "noted")
                while True:
                    (pack if role == "packer" else move)(session)
        time.sleep(0.05)


def begun(role: str, folder: Path) -> subprocess.Popen[bytes]:
    serve = ["-m", "covetrivet", "serve", *(f"--{it}={folder}/{it}" for it in ("socket", "head", "journal"))]
    words = serve if role == "server" else [__file__, role, str(folder)]
    return subprocess.Popen([sys.executable, *words], stderr=subprocess.DEVNULL if words is serve else None)


def main(folder: Path, kills: int) -> None:
    os.environ["PYTHONPATH"] = sys.path[0]
    (folder / "head").write_text("".join(f"{it}\n" for it in HEAD), encoding="ascii")
    roles = ["server", "shop", "clerk", "bank", "mover", "packer", "editor"]
    processes = {it: begun(it, folder) for it in roles}
    for count in range(kills):
        time.sleep(0.3)
        processes[role := roles[count % len(roles)]].kill()
        processes[role].wait()
        processes[role] = begun(role, folder)
    print("behind", kills, "kills the shop ended with", processes["shop"].wait())
    for it in processes.values():
        it.kill()
    # (a reply that the shop was killed with is noted twice, under one number)
    replies = {tuple(map(int, it.split())) for it in (folder / "noted").read_text("ascii").splitlines()}
    each = Counter(order for _, order, _ in replies) == Counter(range(len(ORDERS) - 1))
    print("each order but the cancelled one has one reply:", each)
    for outcome, name in enumerate(("packed", "no such goods", "too dear")):
        print(f"{name}:", *sorted(order for _, order, it in replies if it == outcome))


if __name__ == "__main__":
    if len(sys.argv) > 2:
        life(sys.argv[1], Path(sys.argv[2]))
    else:
        with tempfile.TemporaryDirectory() as room:
            main(Path(room), int(sys.argv[1]) if sys.argv[1:] else 14)
