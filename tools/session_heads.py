"""What a head says, and what a dump tells of a session: who is there, and what there is. They are written from
docs/LIVE.md, and know nothing of the program."""
from dataclasses import dataclass

from session_lines import LARGEST, Fault
from session_store import REPLIES, Element, Spent, Store

# Lines of a head behind which only `restore` may come, and the others.
AWAITING = ("numbers", "element", "over", "settled", "hand", "prepared", "dropped", "from", "ended", "client")
LIMITS = {"limit": "attempts", "max": "most", "keep": "keep"}
SETTINGS = ("limit", "max", "keep", "server", "start", "worker", "register")


def must(is_well, fault):
    if not is_well:
        raise Fault(fault)


def words(body, sign=":"):
    return sign.join(map(str, body))


def shown(body):
    """The words of a body, but for words 2 and 3 where both are 0."""
    return body if any(body[2:]) else body[:2]


@dataclass
class Server:
    kind: str
    stage: int
    registers: list
    act: str
    word: int
    outputs: list
    hand: tuple | None = None
    is_prepared: bool = False
    is_dropped: bool = False
    start: int = 0

    def effect(self, body):
        """What it makes of a body: the register and its value, and the drafts; or why it declines."""
        key, amount = body[0], body[self.word]
        if key >= len(self.registers):
            return "NoRegister"
        after = self.registers[key] + {"add": amount, "take": -amount, "pass": 0}[self.act]
        if not 0 <= after <= LARGEST:
            return "TooLarge" if self.act == "add" else "Short"
        drafts = []
        for stage, to, value in self.outputs:
            made = [body[0] if to == "same" else to, *body[1:]]
            made[self.word] = {"same": amount, "after": after}.get(value, value)
            drafts.append((stage, tuple(made)))
        return key, after, drafts


@dataclass
class Worker:
    stage: int
    hand: tuple | None = None
    end: tuple | None = None
    start: int = 0


@dataclass
class Client:
    owner: int
    sent: int = 0
    element: int = 0
    received: int = 0
    reply: int = 0
    root: int = 0
    body: tuple = (0, 0, 0, 0)
    epoch: int = 1
    # The stage and the words of the last send; stage 0 where they aren't known.
    said: tuple = (0, (0, 0, 0, 0))
    note: str | None = None

    def words(self):
        numbers = f"{self.owner} {self.sent} {self.element} {self.received} {self.reply} {self.root} {words(self.body)}"
        return f"{numbers} {self.epoch} {self.said[0]}:{words(self.said[1])} {self.note or '-'}"


class Head:
    """What there is, and whether a head is over."""

    def __init__(self):
        self.store, self.phase = Store(), "head"
        self.servers, self.workers, self.clients, self.owners = {}, {}, {}, 0

    # -- lines of the head

    def of_head(self, verb, rest):
        if self.phase == "begun":
            must(verb in ("worker", "register", *LIMITS), "Order")
        if verb in LIMITS:
            setattr(self.store, LIMITS[verb], rest[0])
        else:
            getattr(self, f"set_{verb}")(*rest)
        if self.phase == "begun":
            last = self.clients[rest[0]].epoch if verb == "register" else ""
            return [{"worker": f"joined {rest[0]}", "register": f"registered {rest[0]} {last}"}.get(verb, f"{verb} {rest[0]}")]
        if verb in AWAITING:
            self.phase = "restoring"
        return []

    def is_taken(self, name):
        return name in self.servers or name in self.workers or name in self.clients

    def set_server(self, name, kind, stage, registers, act, word, outputs):
        must(not self.is_taken(name), "BadName")
        must(len(self.servers) < 8, "BadLimits")
        self.servers[name] = Server(kind, stage, [0] * registers, act, word, outputs)

    def server(self, name):
        must(name in self.servers, "BadName")
        return self.servers[name]

    def worker(self, name):
        must(name in self.workers, "BadName")
        return self.workers[name]

    def anyone(self, name):
        return self.workers.get(name) or self.server(name)

    def set_start(self, name, k, value):
        registers = self.server(name).registers
        must(k < len(registers), "BadRecipe")
        registers[k] = value

    def set_worker(self, name, stage):
        must(not self.is_taken(name), "BadName")
        self.workers[name] = Worker(stage)

    def set_register(self, name, is_new):
        must(name not in self.servers and name not in self.workers, "BadName")
        if name not in self.clients:
            if self.owners == LARGEST:
                raise Spent
            self.clients[name] = Client(self.owners)
            self.owners += 1
        elif is_new:
            if self.clients[name].epoch == LARGEST:
                raise Spent
            self.clients[name].epoch += 1

    def set_numbers(self, next, units, owners):
        must(owners >= self.owners and next >= self.store.next and units >= self.store.units, "BadNumber")
        self.store.next, self.store.units, self.owners = next, units, owners

    def set_element(self, id, stage, body, root, by, owner, rounds, earlier, status):
        s, e = self.store, Element(stage, body, root, by, owner, status, rounds, earlier)
        must(max(s.elements, default=-1) < id < s.next and not s.over and 1 <= stage <= 999 and rounds <= 3, "BadNumber")
        must(root == id if by is None else root < id and by < s.units, "BadNumber")
        must(status[0] not in ("held", "consumed") or status[1] < s.units, "BadNumber")
        must(status[0] != "held" or status[2] >= 1, "BadNumber")
        must(stage != REPLIES or status[0] not in ("held", "parked"), "BadNumber")
        s.elements[id] = e
        s.add(e, *status)

    def set_over(self, root):
        must(root < self.store.next and self.store.is_over(root), "BadNumber")
        self.store.over.append(root)

    def set_settled(self, stage, consumed, killed):
        must(1 <= stage <= 999, "BadNumber")
        told = {"consumed": consumed, "killed": killed}
        counts, total = self.store.counts(stage), self.store.total
        for it, many in told.items():
            must(counts[it] <= many and total[it] + many - counts[it] <= LARGEST, "BadNumber")
        for it, many in told.items():
            total[it] += many - counts[it]
            counts[it] = many

    def set_hand(self, name, id, unit, tries):
        must(id < self.store.next and unit < self.store.units, "BadNumber")
        who = self.anyone(name)
        must(who.hand is None, "BadName")
        who.hand = (id, unit, tries)

    def set_prepared(self, name):
        must(self.server(name).hand is not None, "BadName")
        self.servers[name].is_prepared = True

    def set_dropped(self, name):
        must(self.server(name).hand is None, "BadName")
        self.servers[name].is_dropped = True

    def set_from(self, name, id):
        self.anyone(name).start = id

    def set_ended(self, name, end):
        must(self.worker(name).end is None, "BadName")
        self.workers[name].end = end

    def set_client(self, name, owner, *rest):
        must(not self.is_taken(name), "BadName")
        must(owner < self.owners, "BadNumber")
        self.clients[name] = Client(owner, *rest)

    # -- dumps

    def do_restore(self):
        return f"restored {self.store.alive()}"

    def do_dump(self):
        lines = [*self.dumped_first(), *self.dumped_people(), *self.dumped_store(), "restore"]
        return [f"dumped {len(lines)}", *(f"> {it}" for it in lines)]

    def dumped_first(self):
        s = self.store
        return [f"limit {s.attempts}", f"max {s.most}", f"keep {s.keep}", f"numbers {s.next} {s.units} {self.owners}"]

    def dumped_people(self):
        for name, it in self.servers.items():
            act = it.act + f":{it.word}" * (it.word != 1)
            yield words([f"server {name} {it.kind} {it.stage} {len(it.registers)} {act}", *map(words, it.outputs)], " ")
            yield from (f"start {name} {k} {value}" for k, value in enumerate(it.registers) if value)
            yield from self.dumped_hand(name, it)
            yield from [f"prepared {name}"] * it.is_prepared + [f"dropped {name}"] * it.is_dropped
        for name, it in sorted(self.workers.items()):
            yield f"worker {name} {it.stage}"
            yield from self.dumped_hand(name, it)
            yield from [f"ended {name} {words(it.end or '', ' ')}"] * bool(it.end)
        for name, it in sorted(self.clients.items()):
            yield f"client {name} {it.words()}"

    @staticmethod
    def dumped_hand(name, it):
        yield from [f"from {name} {it.start}"] * bool(it.start)
        yield from [f"hand {name} {words(it.hand or '', ' ')}"] * (it.hand is not None)

    def dumped_store(self):
        for id, e in self.store.elements.items():
            maker, owner = "client" if e.by is None else e.by, "nobody" if e.owner is None else e.owner
            rounds = f"{e.rounds}" + f":{e.earlier}" * (e.earlier > 0)
            yield f"element {id} {e.stage}:{words(e.body)} {e.root} {maker} {owner} {rounds} {words(e.status, ' ')}"
        yield from (f"over {root}" for root in self.store.over)
        for stage, counts in sorted(self.store.tally.items()):
            if counts["consumed"] or counts["killed"]:
                yield f"settled {stage} {counts['consumed']} {counts['killed']}"
