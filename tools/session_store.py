"""The rules of the store of one thread, in a dictionary and lists: its elements, and what each call does to them. They are written
from docs/LIVE.md, and know nothing of the program."""
from collections import Counter
from dataclasses import dataclass

from session_lines import LARGEST

ALIVE = ("waiting", "held", "parked")
REPLIES = 15


class Refused(Exception):
    """A call is refused, under this name."""

    def __str__(self):
        return " ".join(map(str, self.args))


class Spent(Exception):
    """No number is left, and the session ends."""


def need(is_well, refusal):
    if not is_well:
        raise Refused(refusal)


@dataclass
class Element:
    stage: int
    body: tuple
    root: int
    by: int | None
    owner: int | None
    status: tuple = ("waiting", 0)
    rounds: int = 0
    # How often it was taken in the rounds before.
    earlier: int = 0

    def is_alive(self):
        return self.status[0] in ALIVE

    def is_reply(self):
        return self.stage == REPLIES and self.status[0] == "waiting"


class Store:
    """The elements, in the order of their births, and what becomes of them."""

    def __init__(self):
        self.attempts, self.most, self.keep = 3, LARGEST, 1000
        self.next = self.units = 0
        self.elements, self.over = {}, []
        # How many there are of each status, in all and by stage.
        self.total, self.tally = Counter(), {}

    # -- what there is

    def alive(self):
        return sum(self.total[it] for it in ALIVE)

    def family(self, root):
        return [(id, e) for id, e in self.elements.items() if e.root == root]

    def is_over(self, root):
        return not any(e.is_alive() for _, e in self.family(root))

    def waiting(self, stage, start=0):
        return [id for id, e in self.elements.items() if id >= start and e.stage == stage and e.status[0] == "waiting"]

    def held(self, hand):
        """The element that is in this hand, where its unit holds it still."""
        e = self.elements.get(hand[0])
        return e if e and e.status[:2] == ("held", hand[1]) else None

    def at(self, id):
        need(id in self.elements, "NotThere")
        return self.elements[id]

    # -- changes

    def change(self, e, *status):
        for counts in (self.total, self.counts(e.stage)):
            counts[e.status[0]] = max(0, counts[e.status[0]] - 1)
        self.add(e, *status)

    def counts(self, stage):
        return self.tally.setdefault(stage, Counter())

    def add(self, e, *status):
        for counts in (self.total, self.counts(e.stage)):
            counts[status[0]] = min(LARGEST, counts[status[0]] + 1)
        e.status = status

    def born(self, drafts, root, by, owner):
        if self.next + len(drafts) > LARGEST:
            raise Spent
        for stage, body in drafts:
            e = Element(stage, body, self.next if root is None else root, by, owner)
            self.add(e, "waiting", 0)
            self.elements[self.next] = e
            self.next += 1

    def ended(self, root):
        """Notes a request that is over, and forgets what is too much, in eight steps at most."""
        if self.is_over(root):
            self.over.append(root)
        self.sweep()

    def sweep(self):
        for _ in range(8):
            if len(self.over) > self.keep:
                family = self.family(self.over[0])
                if family:
                    del self.elements[family[0][0]]
                else:
                    self.over.pop(0)

    def unit(self):
        if self.units == LARGEST:
            raise Spent
        self.units += 1
        return self.units - 1

    # -- calls

    def submit(self, stage, body, owner=None):
        need(1 <= stage <= 999 and stage != REPLIES, "BadStage")
        need(self.alive() < self.most, "Full")
        self.born([(stage, body)], None, None, owner)
        self.sweep()
        return self.next - 1

    def hand_out(self, id):
        e = self.at(id)
        need(e.stage != REPLIES, "BadStage")
        need(e.status[0] == "waiting", "NotWaiting")
        if e.status[1] >= 255:
            raise Spent
        attempt = e.status[1] + 1
        self.change(e, "held", self.unit(), attempt)
        return id, self.units - 1, e.earlier + attempt

    def claim(self, stage, start=0):
        """The waiting element with the least id from `start` on, and else that with the least of all; or None."""
        found = self.waiting(stage, start) or self.waiting(stage)
        return self.hand_out(found[0]) if found else None

    def commit(self, hand, drafts):
        """Whether the unit held its element, and the first of the ids that its outputs have."""
        e, first = self.held(hand), self.next
        if e:
            self.born(drafts, e.root, hand[1], e.owner)
            self.change(e, "consumed", hand[1])
            self.ended(e.root)
        return bool(e), first

    def give_up(self, e):
        attempt = e.status[2]
        self.change(e, "waiting" if attempt < self.attempts else "parked", attempt)

    def abort(self, hand):
        e = self.held(hand)
        if e:
            self.give_up(e)
        return bool(e)

    def kill(self, id):
        e = self.at(id)
        if e.status[0] == "consumed":
            raise Refused("Consumed", e.status[1])
        need(e.status[0] != "killed", "AlreadyKilled")
        was_held = e.status[0] == "held"
        self.change(e, "killed")
        self.ended(e.root)
        return was_held

    def cancel(self, root):
        need(self.at(root).by is None, "NotThere")
        if self.is_over(root):
            return 0
        found = [e for _, e in self.family(root) if e.is_alive() and e.stage != REPLIES]
        for e in found:
            self.change(e, "killed")
        self.ended(root)
        return len(found)

    def requeue(self, id):
        e = self.at(id)
        need(e.status[0] == "parked", "NotParked")
        need(e.rounds < 3, "NoRound")
        if e.earlier + e.status[1] > 255:
            raise Spent
        e.rounds += 1
        e.earlier += e.status[1]
        self.change(e, "waiting", 0)
        return e.rounds

    def release(self, id):
        e = self.at(id)
        need(e.status[0] == "held", "NotHeld")
        _, unit, attempt = e.status
        self.give_up(e)
        return unit, attempt

    def collect(self, id):
        e = self.elements[id]
        if self.units == LARGEST:
            raise Spent
        self.change(e, "consumed", self.units)
        self.ended(e.root)
        self.units += 1
