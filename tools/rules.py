"""The rules of scripts, written once more from docs/SCRIPTS.md alone: what each command answers, by one thread and one list of elements.

No words, no marks, and no units of work but their numbers. tools/random_scripts holds the programs against this. A rollover is in
rollover_rules.py.
"""
from dataclasses import dataclass, field, replace

TOP = 2**64

STATES = ("waiting", "held", "consumed", "parked", "killed")


@dataclass
class Element:
    stage: int
    root: int
    body: list
    by: object = None
    status: str = "waiting"
    unit: int = 0
    # of this round, and how many rounds came before it
    attempts: int = 0
    rounds: int = 0

    def told(self):
        known = {"waiting": f"waiting {self.attempts}", "held": f"held {self.unit} {self.attempts}", "consumed": f"consumed {self.unit}"}
        return known.get(self.status, f"parked {self.attempts}" if self.status == "parked" else "killed")

    def settled(self):
        return self.status in ("consumed", "killed")


@dataclass
class Pass:
    """A pass by its number: the rows that are left to it, from the next one on, and how many units it has begun."""
    number: int
    next: int
    left: int
    begun: int = 0

    def use(self, count):
        self.next, self.left = self.next + count, self.left - count
        return self.next - count

    def begin(self, units):
        """Returns the next of its units."""
        self.begun += 1
        return self.number * units + self.begun - 1


@dataclass
class Server:
    name: str
    stage: int
    registers: list
    act: str
    # which word of a body is the amount
    word: int
    outputs: list
    # the unit that is open, the element that it took, and what was prepared
    unit: object = None
    item: int = 0
    pending: object = None
    dropped: bool = False
    # where its next claim in turn begins: after what it took last by one
    place: int = 0
    kind: str = "eager"

    def effect(self, body):
        """Returns the register after the act, or why the element is declined."""
        key, amount = body[0], body[self.word]
        if key >= len(self.registers):
            return None, "NoRegister"
        old = self.registers[key]
        new = {"add": old + amount, "take": old - amount, "pass": old}[self.act]
        return (None, "TooLarge") if new >= TOP else (None, "Short") if new < 0 else (new, None)

    def output(self, body, key, amount, after):
        """The body of an output: the element's own, but for the key and the amount."""
        made = [body[0] if key == "same" else key, *body[1:]]
        made[self.word] = {"same": body[self.word], "after": after}.get(amount, amount)
        return made


@dataclass
class Run:
    rows: int
    units: int
    limit: int
    # how many spare blocks of 8 rows there are, and how many of them are drawn
    spare: int
    servers: list
    elements: dict = field(default_factory=dict)
    drawn: int = 0
    # the client's, one for each server, and so many others
    passes: list = field(default_factory=list)
    others: int = 0

    def begin(self):
        """Gives each pass its rows."""
        self.passes = [Pass(at, at * self.rows, self.rows) for at in range(1 + len(self.servers) + self.others)]

    def is_busy(self):
        """Whether a unit of work is open."""
        return any(it.unit is not None for it in self.servers)

    def afresh(self):
        """A run with the same limits and servers, in which nothing has happened."""
        servers = [replace(it, unit=None, item=0, pending=None, place=0) for it in self.servers]
        new = Run(self.rows, self.units, self.limit, self.spare, servers, others=self.others)
        for it in new.servers:
            it.registers = [*it.registers]
        new.begin()
        return new

    def has_room(self, by, count):
        """Whether there are `count` rows for the pass, if need be in the next spare block."""
        if by.left < count and self.drawn < self.spare:
            by.next, by.left = len(self.passes) * self.rows + 8 * self.drawn, 8
            self.drawn += 1
        return by.left >= count

    def give_up(self, element):
        element.status = "waiting" if element.attempts < self.limit else "parked"

    def holds(self, server):
        """Whether the open unit still has its element."""
        element = self.elements[server.item]
        return element.status == "held" and element.unit == server.unit

    def abort(self, server):
        """Ends the open unit of a server by an abort: whether it was this one."""
        ours = self.holds(server)
        if ours:
            self.give_up(self.elements[server.item])
        server.unit = server.pending = None
        return ours

    def waiting(self, stage):
        """The elements that wait in a stage, in the order of their ids."""
        return [i for i, it in sorted(self.elements.items()) if it.status == "waiting" and it.stage == stage]

    def claim(self, at, in_turn=False):
        server = self.servers[at]
        if self.passes[at + 1].begun == self.units:
            return "nounit"
        found = self.waiting(server.stage)
        if not found:
            return "idle"
        return self.held_by(server, at + 1, self.in_turn(server, found) if in_turn else found[0])

    def in_turn(self, server, found):
        """Which of these ids comes next for a server."""
        number = min(found, key=lambda i: (i < server.place, i))
        server.place = number + 1
        return number

    def take(self, at, number):
        server, element = self.servers[at], self.elements.get(number)
        if self.passes[at + 1].begun == self.units:
            return "nounit"
        if element is None:
            return f"refused {number} NotThere"
        if element.stage != server.stage:
            return f"refused {number} BadStage"
        return self.held_by(server, at + 1, number) if element.status == "waiting" else f"refused {number} NotWaiting"

    def held_by(self, server, by, number):
        """A new unit of a server takes the element."""
        element = self.elements[number]
        server.unit, server.item = self.passes[by].begin(self.units), number
        element.status, element.unit, element.attempts = "held", server.unit, element.attempts + 1
        return f"work {number} unit {server.unit} attempt {element.attempts}"

    def prepare(self, server):
        element = self.elements[server.item]
        after, why = server.effect(element.body)
        if why:
            self.abort(server)
            return f"refused {server.item} {why}"
        drafts = [(s, server.output(element.body, k, a, after)) for s, k, a in server.outputs]
        server.pending = element.body[0], after, drafts
        return "ready"

    def commit(self, at):
        server = self.servers[at]
        if server.pending is None:
            answer = self.prepare(server)
            if answer != "ready":
                return answer
        key, after, drafts = server.pending
        answer = self.ended(server, at + 1, drafts)
        if answer.startswith("done"):
            server.registers[key] = after
        return answer

    def ended(self, server, by, drafts):
        """The open unit of a server commits with these drafts."""
        unit, item, element, own = server.unit, server.item, self.elements[server.item], self.passes[by]
        if not self.has_room(own, len(drafts)):
            self.abort(server)
            return f"full {item}"
        first, ours = own.use(len(drafts)), self.holds(server)
        server.unit = server.pending = None
        if not ours:
            return f"lost {item}"
        element.status = "consumed"
        for place, (stage, body) in enumerate(drafts):
            self.elements[first + place] = Element(stage, element.root, body, unit)
        return f"done {item} unit {unit} outputs {first if drafts else 0} {len(drafts)}"

    def turn(self, at, in_turn=False):
        answer = self.claim(at, in_turn)
        return self.commit(at) if answer.startswith("work") else answer

    def drain(self, *words):
        free = [at for at, it in enumerate(self.servers) if not it.dropped and it.unit is None]
        while any([self.turn(at, in_turn=bool(words)) not in ("idle", "nounit") for at in free]):
            pass
        return "drained"

    def kill(self, number):
        element = self.elements[number]
        held = element.status == "held"
        element.status = "killed"
        return held

    def at_server(self, verb, at, *numbers):
        server = self.servers[at]
        if server.dropped:
            return "ended"
        if verb == "drop":
            if server.unit is not None:
                self.abort(server)
            server.dropped = True
            return "dropped"
        if verb in ("turn", "claim", "next", "take"):
            calls = {"turn": self.turn, "claim": self.claim, "next": lambda at: self.claim(at, in_turn=True), "take": self.take}
            return "busy" if server.unit is not None else calls[verb](at, *numbers)
        if server.unit is None:
            return "none"
        if verb == "prepare":
            return "busy" if server.pending is not None else self.prepare(server)
        if verb == "commit":
            return self.commit(at)
        return f"{'aborted' if self.abort(server) else 'already'} {server.item}"

    def submit(self, stage, *words):
        if not 1 <= stage <= 14:
            return "refused 3 BadStage"
        if not self.has_room(self.passes[0], 1):
            return "refused 7 Full"
        number = self.passes[0].use(1)
        self.elements[number] = Element(stage, number, [*words, 0, 0][:4])
        return f"submitted {number}"

    def cancel(self, root):
        if root not in self.elements or self.elements[root].by is not None:
            return "refused 4 NotThere"
        found = [i for i, it in self.elements.items() if it.root == root and it.stage != 15 and not it.settled()]
        for number in found:
            self.kill(number)
        return f"cancelled {root} killed {len(found)}"

    def killed(self, number):
        element = self.elements.get(number)
        if element is None:
            return "refused 4 NotThere"
        if element.settled():
            return f"refused 5 Consumed {element.unit}" if element.status == "consumed" else "refused 6 AlreadyKilled"
        return f"killed {number} aborted {int(self.kill(number))}"

    def requeue(self, number):
        element = self.elements.get(number)
        if element is None:
            return "refused 4 NotThere"
        if element.status != "parked":
            return "refused 8 NotParked"
        if element.rounds == 3:
            return "refused 9 NoRound"
        element.status, element.attempts, element.rounds = "waiting", 0, element.rounds + 1
        return f"requeued {number} round {element.rounds}"

    def release(self, number):
        element = self.elements.get(number)
        if element is None:
            return "refused 4 NotThere"
        if element.status != "held":
            return "refused 12 NotHeld"
        self.give_up(element)
        return f"released {number} unit {element.unit} attempt {element.attempts}"

    def family(self, root):
        found = [f"{i}:{it.stage}:{it.status}" for i, it in sorted(self.elements.items()) if it.root == root]
        return " ".join([f"family {root}", *found])

    def read(self, number):
        it = self.elements.get(number)
        if it is None:
            return "refused 4 NotThere"
        by = "client" if it.by is None else it.by
        more = f" more {it.body[2]} {it.body[3]}" if any(it.body[2:]) else ""
        return f"{number} stage {it.stage} root {it.root} key {it.body[0]} amount {it.body[1]}{more} by {by} {it.told()}"

    def replies(self, root):
        return [i for i, it in sorted(self.elements.items()) if it.stage == 15 and it.root == root and it.status == "waiting"]

    def told_of(self, word, root, found):
        bodies = [self.elements[i].body for i in found]
        return " ".join([f"{word} {root}", *(":".join(map(str, [i, *(it if any(it[2:]) else it[:2])])) for i, it in zip(found, bodies))])

    def reply(self, root):
        return self.told_of("replies", root, self.replies(root))

    def collect(self, root):
        found = self.replies(root)
        for number in found:
            self.kill(number)
        return self.told_of("collected", root, found)

    def count(self):
        return " ".join(f"{state} {sum(it.status == state for it in self.elements.values())}" for state in STATES)

    def line(self, words):
        verb, numbers = words[0], words[1:]
        if verb in ("turn", "claim", "next", "take", "prepare", "commit", "abort", "drop"):
            return f"{self.servers[numbers[0]].name} {self.at_server(verb, *numbers)}"
        if verb == "balance":
            server, k = self.servers[numbers[0]], numbers[1]
            known = server.registers[k] if k < len(server.registers) else "none"
            return f"{server.name} ended" if server.dropped else f"balance {server.name} {k} {known}"
        if verb == "sum":
            k = numbers[0]
            return f"sum {k} {sum(it.registers[k] for it in self.servers if not it.dropped and k < len(it.registers))}"
        if verb == "errors":
            return " ".join(["errors", *(str(i) for i, it in sorted(self.elements.items()) if it.status == "parked")])
        call = {
            "submit": self.submit, "kill": self.killed, "cancel": self.cancel, "requeue": self.requeue, "release": self.release,
            "read": self.read, "reply": self.reply, "collect": self.collect, "family": self.family, "count": self.count, "drain": self.drain,
        }
        return call[verb](*numbers)
