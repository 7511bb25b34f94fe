"""What several threads wrote down, and what a history is that agrees with it.

A log has a line for each call: the thread, what a counter said before and after the call, the call and its answer. Each change,
and each look that an answer reports, happened at a point between these two. A history is an order of all points, in which
each change may come where it is, each look is right where it is, and a call that ended before another began comes first.
Nothing is known here of the program but what its calls mean.
"""
import re

# How often an element can be given another round.
MAX_ROUNDS = 3

STATUSES = ("waiting", "held", "consumed", "parked", "killed")


class Wrong(Exception):
    """Why no history agrees."""


class Call:
    def __init__(self, thread, before, after, made):
        self.thread, self.before, self.after = thread, before, after
        self.kind, self.told = made["is"], made
        self.answer = made["answer"]


def read_value(text):
    """Reads a value as Rust's Debug writes it: numbers, words, lists, ('Ok', x), and {'is': name, field: value}."""
    words, at = re.findall(r"\w+|[^\w\s]", text), 0

    def value():
        nonlocal at
        word, at = words[at], at + 1
        after = words[at] if at < len(words) else ""
        if word == "[":
            return listed("]")
        if word.isdigit():
            return int(word)
        if after == "(":
            at += 1
            return (word, *listed(")"))
        if after == "{":
            at += 1
            fields = {"is": word}
            while words[at] != "}":
                name, at = words[at], at + 2
                fields[name] = value()
                at += words[at] == ","
            at += 1
            return fields
        return word

    def listed(end):
        nonlocal at
        items = []
        while words[at] != end:
            items.append(value())
            at += words[at] == ","
        at += 1
        return items

    return value()


def read_rounds(lines):
    """Reads a log: for each round its limits, its calls in each thread's order, and its closing account."""
    rounds = []
    for line in lines:
        if line.startswith("round "):
            rounds.append((read_value(line.split(" ", 2)[2]), [], []))
        elif line.startswith("account "):
            rounds[-1][2].append(read_value(line[len("account "):]))
        elif not line.startswith("carried "):
            thread, before, after, made = line.split(" ", 3)
            rounds[-1][1].append(Call(int(thread), int(before), int(after), read_value(made)))
    return rounds


def contents(element):
    return element["stage"], element["root"], tuple(element["body"]), element["by"]


def status(told):
    """A status as a read reports it: a name, and its number and unit where it has them."""
    if isinstance(told, str):
        return (told.lower(),)
    return (told["is"].lower(), *(told[it] for it in ("attempts", "unit", "attempt") if it in told))


class Point:
    """A change or a look, which lies after the counter said `low` and before it said `high`."""

    def __init__(self, call, does, *what):
        self.low, self.high = self.window = (call.before, call.after) if call else (-1, float("inf"))
        self.does, self.what = does, what
        self.next, self.last = [], []


class Manager:
    """What there is after the changes so far: which may come next, and what a look shows."""

    def __init__(self, limits):
        self.limits, self.born, self.status, self.changed = limits, {}, {}, []
        self.taken, self.open, self.rounds = {}, {}, {}
        # Which thread's pass uses a spare block.
        self.drawer = {}

    def now_is(self, id, *status):
        self.status[id] = status
        self.changed.append(id)

    def may_use(self, thread, id):
        own = self.limits["parts"] * self.limits["rows"]
        if id < own:
            return id // self.limits["rows"] == thread
        block = (id - own) // 8
        return block < self.limits["spare"] and self.drawer.setdefault(block, thread) == thread

    def be_born(self, thread, id, stage, root, body, by):
        if id in self.born or not self.may_use(thread, id):
            raise Wrong(f"{id} can't be born")
        self.born[id] = (stage, root, body, by)
        self.now_is(id, "waiting", 0)

    def submit(self, thread, id, stage, body):
        self.be_born(thread, id, stage, id, body, "None")

    def claim(self, thread, unit, id, element, stage, attempt):
        is_free = unit // self.limits["units"] == thread and unit not in self.taken and thread not in self.open
        if not is_free or self.born.get(id) != element or element[0] != stage or stage > 14:
            raise Wrong(f"unit {unit} can't take {id}")
        if self.status[id] != ("waiting", attempt - 1):
            raise Wrong(f"unit {unit} takes {id}, which is {self.status[id]}")
        self.taken[unit], self.open[thread] = id, unit
        self.now_is(id, "held", unit, attempt)

    def held_by(self, unit):
        id = self.taken.get(unit)
        if id is None or self.status[id][:2] != ("held", unit):
            raise Wrong(f"unit {unit} holds nothing")
        self.open = {thread: it for thread, it in self.open.items() if it != unit}
        return id

    def commit(self, thread, unit, first, drafts):
        if self.open.get(thread) != unit:
            raise Wrong(f"unit {unit} isn't open")
        id = self.held_by(unit)
        self.now_is(id, "consumed", unit)
        for place, (stage, body) in enumerate(drafts):
            self.be_born(thread, first + place, stage, self.born[id][1], body, ("Some", unit))

    def abort(self, unit):
        id = self.held_by(unit)
        attempt = self.status[id][2]
        self.now_is(id, "waiting" if attempt < self.limits["attempts"] else "parked", attempt)

    def release(self, id, unit, attempt):
        if self.status.get(id) != ("held", unit, attempt):
            raise Wrong(f"{id} is {self.status.get(id)}, and not held by unit {unit} as {attempt}")
        self.abort(unit)

    def collect(self, id, element):
        if self.born.get(id) != element or element[0] != 15:
            raise Wrong(f"{id} is {self.born.get(id)}, and no reply {element}")
        self.kill(id)

    def kill(self, id):
        if id not in self.born or self.status[id][0] not in ("waiting", "parked"):
            raise Wrong(f"{id} can't be killed")
        self.now_is(id, "killed")

    def requeue(self, id, round):
        if self.status.get(id, ("",))[0] != "parked" or round != self.rounds.get(id, 0) + 1 or round > MAX_ROUNDS:
            raise Wrong(f"{id} can't be given round {round}")
        self.rounds[id] = round
        self.now_is(id, "waiting", 0)

    def no_round(self, id):
        if self.status.get(id, ("",))[0] != "parked" or self.rounds.get(id, 0) != MAX_ROUNDS:
            raise Wrong(f"{id} has a round left, or isn't parked")

    def look(self, id, wanted, of):
        """`wanted` is a status or a prefix of one, or None where nothing with this id may be born; `of` is the element, or
        the root of a reply."""
        if wanted is None and id in self.born or wanted and self.status.get(id, ())[: len(wanted)] != wanted:
            raise Wrong(f"{id} is {self.status.get(id)}, and not {wanted}")
        if of is not None and of not in (self.born[id], self.born[id][:2]):
            raise Wrong(f"{id} is {self.born[id]}, and not {of}")

    def stage_is(self, id, is_reply):
        if id not in self.born or (self.born[id][0] == 15) != is_reply:
            raise Wrong(f"{id} is {self.born.get(id)}, and of the other kind of stage")

    def settled(self, root):
        family = [id for id, it in self.born.items() if it[1] == root and it[0] != 15]
        if root not in family or any(self.status[it][0] not in ("consumed", "killed") for it in family):
            raise Wrong(f"the request {root} is not settled")

    def account(self):
        stages = [{"is": "Counts", **dict.fromkeys(STATUSES, 0)} for _ in range(16)]
        for id, element in self.born.items():
            for stage in (element[0] - 1, 15):
                stages[stage][self.status[id][0]] += 1
        return {"is": "Account", "total": stages[15], "stages": stages[:15]}


def agrees(limits, points, passed_over, account):
    """Goes through a history: whether each change may come where it stands, each look is right there, and all times fit."""
    manager, now, seen = Manager(limits), -1, {}
    for it in points:
        now = max(now, it.low)
        low, high = it.window
        if not low <= now < high:
            raise Wrong(f"{it.does} {it.what} out of its time")
        getattr(manager, it.does)(*it.what)
        for id in manager.changed:
            seen.setdefault(id, []).append((now, manager.status[id][0]))
        manager.changed = []
    for call, name, stage, root, first, end in passed_over:
        for id, element in manager.born.items():
            if (stage in (None, element[0])) and root in (None, element[1]) and first <= id < end:
                before = [how for time, how in seen[id] if time < call.before]
                is_so = before and name in (before[-1], "there")
                if is_so and (name == "there" or not any(call.before <= time < call.after for time, _ in seen[id])):
                    raise Wrong(f"thread {call.thread} at {call.before} passed {id} over, which was {name}")
    for told in account:
        if told != manager.account():
            raise Wrong("the closing account counts otherwise")
