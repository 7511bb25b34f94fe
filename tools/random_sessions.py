"""Random sessions: the lines of a session, chosen by what the rules (session_rules.py) say is there, with faulty lines in
between; and the lines of a dump with something changed, which a session must take or refuse line by line."""
from session_lines import LARGEST
from session_rules import RuledSession

NAMES = ["ann", "bob", "a.1", "Z-z", "carl"]
CLIENTS = ["shop", "bar", "inn_2", "ann"]
TAGS = ["1", "a.b", "Z-9_", "12345678901234567890", "123456789012345678901", "", "x@"]
EDGES = [0, 1, 2, 3, 4, 7, 8, 15, 64, 65, 255, 256, 999, 1000, 65535, 65536, LARGEST - 1, LARGEST, LARGEST + 1]
# How often each kind of line comes; those that aren't here come once.
WEIGHTS = {
    "submit": 10, "claim": 9, "next": 4, "take": 3, "commit": 14, "abort": 4, "turn": 5, "prepare": 4, "kill": 1.5, "requeue": 3,
    "release": 2, "send": 6, "receive": 9, "collect": 1, "read": 3, "family": 2, "register": 2, "faulty": 4, "drop": 0.15, "forget": 0.2,
    "leave": 0.4, "cancel": 0.7, "drain": 0.3, "drain next": 0.3, "restore": 0.1, "max": 0.6, "last": 2,
}
PLAIN = ("errors", "count", "depth", "account", "holds", "dump", "restore", "drain", "drain next", "version", "", "# nothing")
KINDS = sorted({*PLAIN, *WEIGHTS, "reply", "list", "sum", "balance", "worker"})


class Lines:
    """Chooses one line after another, of a session that is at a point that the rules know."""

    def __init__(self, random):
        self.random, self.session = random, RuledSession()

    def pick(self, some, otherwise):
        some = [*some]
        return self.random.choice(some) if some and self.random.random() < 0.9 else otherwise

    def body(self):
        words = [self.random.choice((0, 0, 1, 2)), self.random.choice((0, 1, 2, 5, 9, LARGEST))]
        return words + [self.random.randrange(3) for _ in range(self.random.choice((0, 0, 0, 1, 2)))]

    def head(self):
        """Lines of a head, some of which are faulty."""
        random, lines = self.random, [f"limit {self.random.randrange(1, 4)}"]
        if random.random() < 0.5:
            lines.append(f"keep {random.randrange(1, 6)}")
        if random.random() < 0.3:
            lines.append(f"max {random.randrange(2, 12)}")
        for k in range(random.randrange(4)):
            stage, act = random.randrange(1, 5), random.choice(("add", "add:1", "add:2", "take", "take:3", "pass"))
            outputs = [f"{random.choice((stage + 1, stage + 2, 15))}:{random.choice(('same', 0, 2))}:{random.choice(('same', 'after', 3))}"
                       for _ in range(random.randrange(4))]
            lines.append(" ".join([f"server s{k} {random.choice(('eager', 'lazy'))} {stage} {random.randrange(1, 4)} {act}", *outputs]))
            lines.append(f"start s{k} {random.randrange(3)} {random.choice((0, 4, 20, LARGEST))}")
        lines += [f"worker {it} {random.randrange(1, 5)}" for it in random.sample(NAMES, random.randrange(1, 5))]
        lines += [f"register {it}" for it in random.sample(CLIENTS, random.randrange(4))]
        return lines

    def line(self):
        if self.random.random() < 0.3:
            return f"@{self.random.choice(TAGS)} {self.untagged()}"
        return self.untagged()

    def untagged(self):
        kind = self.random.choices(KINDS, [WEIGHTS.get(it, 1) for it in KINDS])[0]
        if kind == "faulty":
            return self.faulty(self.line())
        return kind if kind in PLAIN else getattr(self, f"make_{kind}", self.make_other)(kind)

    def id(self, *states):
        found = [id for id, e in self.session.store.elements.items() if not states or e.status[0] in states]
        return self.pick(found[-12:], self.random.choice((0, self.session.store.next, 1, LARGEST)))

    def worker(self, is_held=None):
        everyone = {**self.session.workers, **self.session.servers}
        found = [it for it, w in everyone.items() if is_held in (None, w.hand is not None)]
        return self.pick(found or everyone, self.random.choice((*NAMES, "s0", "shop", "nobody")))

    def client(self):
        return self.pick(self.session.clients, self.random.choice((*CLIENTS, "s0")))

    def make_submit(self, kind):
        stages = [it.stage for it in [*self.session.workers.values(), *self.session.servers.values()]]
        return f"submit {self.pick(stages, self.random.choice((1, 2, 5, 15, 0)))} {' '.join(map(str, self.body()))}"

    def make_commit(self, kind):
        name, drafts = self.worker(True), []
        if name in self.session.workers:
            stages = [self.random.choice((1, 2, 3, 4, 15, 15, 999)) for _ in range(self.random.randrange(5))]
            drafts = [":".join(map(str, [it, *self.body()])) for it in stages]
        return " ".join(["commit", name, *self.fence(name), *drafts])

    def fence(self, name):
        """At times a fence, which is mostly that of what is in hand."""
        hand = self.session.workers[name].hand if name in self.session.workers else None
        if self.random.random() < 0.5:
            return []
        id, _, tries = hand or (self.id(), 0, 1)
        return [f"={self.random.choice((id, id, id, self.id()))}:{max(0, tries + self.random.choice((0, 0, 0, 0, -1, 1)))}"]

    def make_other(self, kind):
        if kind in ("claim", "next", "turn"):
            return f"{kind} {self.worker(False)}"
        if kind in ("abort", "prepare", "leave"):
            name = self.worker(True)
            return " ".join([kind, name, *(self.fence(name) if kind == "abort" else [])])
        if kind in ("drop", "last", "forget"):
            return f"{kind} {self.pick(self.session.servers if kind == 'drop' else self.session.clients, self.worker())}"
        states = {"requeue": ["parked"], "release": ["held"], "kill": ["waiting", "held", "parked"]}.get(kind, [])
        return f"{kind} {self.id(*states)}"

    def make_take(self, kind):
        return f"take {self.worker(False)} {self.id('waiting')}"

    def make_list(self, kind):
        return f"list {self.random.choice((1, 2, 3, 15, 999))}" + f" {self.id()}" * self.random.randrange(2)

    def make_sum(self, kind):
        return f"sum {self.random.randrange(4)}"

    def make_max(self, kind):
        return f"{self.random.choice(('max', 'max', 'limit', 'keep'))} {self.random.randrange(9)}"

    def make_balance(self, kind):
        return f"balance {self.pick(self.session.servers, self.worker())} {self.random.randrange(4)}"

    def make_worker(self, kind):
        return f"worker {self.random.choice((*NAMES, *CLIENTS))} {self.random.choice((1, 2, 3, 4, 15, 999))}"

    def make_register(self, kind):
        return f"register {self.random.choice((*CLIENTS, *NAMES))}" + " new" * (self.random.random() < 0.3)

    def in_epoch(self, name):
        """A client's name, at times with an epoch, which is mostly its own."""
        if name not in self.session.clients or self.random.random() < 0.5:
            return name
        return f"{name}/{max(0, self.session.clients[name].epoch + self.random.choice((0, 0, 0, -1, 1)))}"

    def number(self, made):
        return max(0, made + self.random.choice((1, 1, 1, 1, 0, 0, -1, 2)))

    def make_send(self, kind):
        name = self.client()
        it = self.session.clients.get(name)
        number, words = self.number(it.sent if it else 0), self.make_submit(kind)[7:]
        if it and number == it.sent and self.random.random() < 0.6:
            words = f"{it.said[0]} {' '.join(map(str, it.said[1]))}"
        return f"send {self.in_epoch(name)} {number} {words}"

    def make_receive(self, kind):
        name = self.client()
        if name not in self.session.clients:
            return f"receive {name} 1"
        it, elements = self.session.clients[name], self.session.store.elements.items()
        own = [id for id, e in elements if e.owner == it.owner and e.root == id]
        root, note = f" {self.pick(own, self.id())}" * (self.random.random() < 0.4), " note p.1" * (self.random.random() < 0.4)
        return f"receive {self.in_epoch(name)} {self.number(it.received)}{root}{note}"

    def faulty(self, line):
        """A line with something changed, which may be none any more, or another one."""
        words, random = line.split(" "), self.random
        at = random.randrange(len(words))
        words[at:at + 1] = random.choice(([], [words[at]] * 2, [words[at] + random.choice(":x \t-")], [str(random.choice(EDGES))], ["?"]))
        return " ".join(words) + " " * random.choice((0, 0, 0, 1, 1100))

    def further(self, many):
        """So many lines more, and what is there behind them."""
        lines = []
        for _ in range(many):
            lines.append(self.line())
            self.session.answers(lines[-1].encode())
        return lines


def session(random):
    """The lines of a session, and the rules' session behind them."""
    chosen = Lines(random)
    lines = chosen.head()
    lines += [chosen.faulty(it) for it in lines if random.random() < 0.2]
    for it in lines:
        chosen.session.answers(it.encode())
    return lines + chosen.further(random.randrange(40, 200)), chosen


def changed(lines, random):
    """The lines of a dump, of which some are changed."""
    lines = [*lines]
    for _ in range(random.randrange(1, 4)):
        at = random.randrange(len(lines))
        words = lines[at].split(" ")
        k = random.randrange(len(words))
        parts = words[k].split(":")
        parts[random.randrange(len(parts))] = str(random.choice(EDGES))
        words[k] = ":".join(parts)
        other = random.randrange(len(lines))
        others = [[], [lines[at], lines[other]], [lines[other], lines[at]]]
        lines[at:at + 1] = random.choice([[" ".join(words)]] * 3 + others)
        if not lines:
            return ["numbers 1 1 1"]
    return lines
