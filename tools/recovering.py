"""The processes that tools/recovery kills: recovering.py client|worker SOCKET FOLDER ORDERS [ERROR], and a program with an error
around one: recovering.py session PROGRAM [--journal FILE].

The client sends the orders 1 to ORDERS, of which some are under way at a time, and writes down in FOLDER/handled each reply that it
handles: the number of the receive, and the order's. The worker replies to each order, and has the till add its number up. Each goes on
behind a crash by what `last` tells, and both go on while the server is away.

The errors, of which tools/recovery has to find each. Who has one is killed by itself, again and again, where it tells:

again     the client sends its last order under a new number when it begins
skip      the client doesn't receive its last reply again when it begins
twice     the worker submits its last work again when it begins
forget    the session submits what is sent again
"""
import os
import re
import signal
import subprocess
import sys
import time

HERE = os.path.dirname(os.path.realpath(__file__))
sys.path.insert(0, os.path.join(HERE, "../clients/python"))
from covetrivet import Client, Disconnected, Draft, Unknown, connect  # noqa: E402

UNDER_WAY, SECONDS = 8, 0.002
REPLIES, FOR_THE_TILL = 15, 2
# how many replies, commits or sends a life has that has an error
STEPS = 10


class Life:
    """A process that has an error ends behind so many steps, and one that has none goes on."""

    def __init__(self, is_wrong):
        self.left = STEPS if is_wrong else 0

    def step(self):
        self.left -= 1
        if not self.left:
            os.kill(os.getpid(), signal.SIGKILL)


def noted(path):
    """What a file has, or nothing."""
    if not os.path.exists(path):
        return ""
    with open(path, encoding="ascii") as file:
        return file.read()


def note(path, text, how="a"):
    """Writes this at once. (A process that is killed loses nothing that it has written.)"""
    with open(path, how, encoding="ascii") as file:
        file.write(text)


def client(session, folder, orders, error):
    shop, extra = Client(session, "shop"), int(noted(f"{folder}/extra") or 0)
    life = Life(error in ("again", "skip"))

    def handle(reply):
        life.step()
        note(f"{folder}/handled", f"{reply.number} {reply.words[0]}\n")

    def send(order):
        shop.send((order, 7 * order))

    if error != "skip" and (reply := shop.receive_again()):
        handle(reply)
    if error == "again" and shop.sent > extra:
        send(shop.sent - extra)
        note(f"{folder}/extra", str(extra := extra + 1), "w")
    while shop.received < orders + extra:
        while shop.sent < min(orders + extra, shop.received + UNDER_WAY):
            send(shop.sent + 1 - extra)
        if reply := shop.receive():
            handle(reply)
        else:
            time.sleep(SECONDS)


def worker(session, folder, error):
    """Never ends by itself."""
    last, life = session.last_work("packer"), Life(error == "twice")
    if error == "twice" and last.ended and not last.work:
        session.submit(1, int(noted(f"{folder}/work") or 0))
    work = last.work
    while True:
        if work:
            note(f"{folder}/work", str(work.words[0]), "w")
            done = Draft(FOR_THE_TILL, 0, work.words[0]), Draft(REPLIES, *work.words)
            session.commit("packer", *done)
            session.drain()
            life.step()
        else:
            time.sleep(SECONDS)
        work = session.claim("packer")


def go_on(path, act):
    """Acts over a connection, and once more by what `last` tells where the session or its server was lost."""
    while True:
        try:
            with connect(path) as session:
                return act(session)
        except (Disconnected, Unknown):
            time.sleep(SECONDS)


def wrong_session(words):
    """Answers by the program, which is given the next number for each send that is made again."""
    program = subprocess.Popen(words, stdin=subprocess.PIPE, stdout=subprocess.PIPE, bufsize=0)
    life = Life(True)
    told = iter(program.stdout.readline, b"")

    def answers(line):
        program.stdin.write(line)
        first = next(told)
        counted = re.fullmatch(rb"(?:@\S+ )?dumped (\d+)\n", first)
        return first + b"".join(next(told) for _ in range(int(counted[1]) if counted else 0))

    if "--journal" in words:
        os.write(1, next(told))
    while line := sys.stdin.buffer.readline():
        sent = re.fullmatch(rb"((?:@\S+ )?send shop(?:/\d+)?) (\d+) (.*)\n", line)
        if line.split()[0] in (b"keep", b"limit", b"server", b"worker", b"register"):
            program.stdin.write(line)
        elif sent:
            count = int(re.match(rb"last shop sent (\d+)", answers(b"last shop\n"))[1])
            answer = answers(b"%s %d %s\n" % (sent[1], max(count + 1, int(sent[2])), sent[3]))
            life.step()
            os.write(1, re.sub(rb"\bsent shop \d+", b"sent shop %s" % sent[2], answer))
        else:
            os.write(1, answers(line))
    program.stdin.close()
    os.write(1, program.stdout.read())
    return program.wait()


def main():
    role, first, *more = sys.argv[1:]
    if role == "session":
        return wrong_session([first, *more])
    folder, *more = more
    orders, error = int(more[0]), more[1] if len(more) > 1 else ""
    if role == "client":
        return go_on(first, lambda session: client(session, folder, orders, error))
    return go_on(first, lambda session: worker(session, folder, error))


if __name__ == "__main__":
    sys.exit(main())
