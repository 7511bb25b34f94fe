"""A rollover, written once more from docs/ROLLOVER.md alone: what is alive in one run goes on in another of the same limits.

It is described first, and then born of its description alone. tools/rules.py has the runs. Nothing is shared with the program: elements
are a dictionary, and a new manager is a new run.
"""
from dataclasses import dataclass

from rules import Element

MOST_OUTPUTS = 4


class Full(Exception):
    """The new manager has no room for what is alive."""


@dataclass(frozen=True)
class Alive:
    """An element that is alive: it waits or is parked. One that is its own root has that twice."""
    number: int
    attempts: int
    rounds: int
    stage: int
    body: tuple
    root: int
    root_stage: int
    root_body: tuple


def described(run):
    """What is alive in a run, in the order of the ids."""
    found = [(i, it, run.elements[it.root]) for i, it in sorted(run.elements.items()) if not it.settled()]
    return [Alive(i, it.attempts, it.rounds, it.stage, tuple(it.body), it.root, root.stage, tuple(root.body)) for i, it, root in found]


@dataclass
class Family:
    """A family in the new manager: its root there, the element that its next ones are born of, and how many are to come."""
    root: object
    carrier: object
    left: int


class Births:
    """What is alive, born in a new run, in which nothing has happened."""

    def __init__(self, alive, new):
        self.alive, self.new = alive, new
        self.families, self.moved = {}, []
        # what was called in the new manager: by which pass, what, and with which ids and units
        self.calls = []
        # the pass whose part is in use, the pass that draws blocks, and the first one that may have units left
        self.at, self.draws, self.first = 0, None, 0

    def home(self, number):
        """The pass whose part the row is of; one past the last for spare rows."""
        return min(number // self.new.rows, len(self.new.passes))

    def has_units(self, by, units):
        """Whether a pass may begin so many."""
        return self.new.units - by.begun >= units

    def maker(self, home, rows, units):
        """The pass that makes the next elements: in a part as long as there is one with room, and else in spare blocks."""
        passes = self.new.passes
        if home < len(passes):
            self.at = max(self.at, home)
        for by in passes[self.at:]:
            if by.left >= rows and self.has_units(by, units):
                self.at = by.number
                return by
        self.at = len(passes)
        if self.draws is not None and self.has_units(self.draws, units):
            return self.draws
        for by in reversed(passes):
            if by.left < rows and self.has_units(by, units):
                self.draws = by
                return by
        raise Full

    def bear(self, by, elements):
        """These are born of a pass, in a run. Returns the first id."""
        if not self.new.has_room(by, len(elements)):
            raise Full
        first = by.use(len(elements))
        self.new.elements |= {first + place: it for place, it in enumerate(elements)}
        return first

    def submit(self, stage, body, home):
        by = self.maker(home, 1, 0)
        first = self.bear(by, [Element(stage, None, [*body])])
        self.new.elements[first].root = first
        self.calls.append((by.number, "submit", first))
        return first

    def outputs(self, family, home, likes):
        """The carrier is claimed, and these are its outputs."""
        by = self.maker(home, len(likes), 1)
        unit, carrier = by.begin(self.new.units), self.new.elements[family.carrier]
        first = self.bear(by, [Element(stage, family.root, [*body], unit) for stage, body in likes])
        carrier.status, carrier.unit, carrier.attempts = "consumed", unit, carrier.attempts + 1
        self.calls += [(by.number, "claim", family.carrier, unit, 1), (by.number, "commit", first, len(likes))]
        return first

    def next_of(self, rest):
        """The next elements are born: a root by itself, or neighbours of one pass and one family. Returns how many."""
        one = rest[0]
        home, family = self.home(one.number), self.families[one.root]
        if family.root is None:
            family.root = family.carrier = self.submit(one.root_stage, one.root_body, home)
        if one.number == one.root:
            self.moved.append((one.number, family.root))
            return 1
        many = 1
        while many < min(MOST_OUTPUTS, len(rest)) and rest[many].root == one.root and self.home(rest[many].number) == home:
            many += 1
        more = family.left > many
        many -= more and many == MOST_OUTPUTS
        first = self.outputs(family, home, [(it.stage, it.body) for it in rest[:many]] + [(1, [0] * 4)] * more)
        self.moved += [(it.number, first + place) for place, it in enumerate(rest[:many])]
        family.carrier, family.left = first + many, family.left - many
        return many

    def attempt(self, number, element, times):
        """The element is claimed and given up, by the first pass with a unit left."""
        for _ in range(times):
            while self.first < len(self.new.passes) and not self.has_units(self.new.passes[self.first], 1):
                self.first += 1
            if self.first == len(self.new.passes):
                raise Full
            unit = self.new.passes[self.first].begin(self.new.units)
            element.attempts += 1
            self.new.give_up(element)
            self.calls += [(self.first, "claim", number, unit, element.attempts), (self.first, "abort")]

    def replay(self, was, number):
        """The new element is given the rounds and attempts that the old one had."""
        element = self.new.elements[number]
        for _ in range(was.rounds):
            self.attempt(number, element, self.new.limit)
            element.status, element.attempts, element.rounds = "waiting", 0, element.rounds + 1
            self.calls.append((0, "requeue", number, element.rounds))
        self.attempt(number, element, was.attempts)

    def all(self):
        for it in self.alive:
            self.families.setdefault(it.root, Family(None, None, 0)).left += 1
        done = 0
        while done < len(self.alive):
            done += self.next_of(self.alive[done:])
        for was, (_, new) in zip(self.alive, self.moved):
            self.replay(was, new)
        return self.moved


def told(births):
    """What is said of a rollover behind its first words: what was carried over, and which roots weren't."""
    moved = births.all()
    roots = [f"{root}:{it.root}" for root, it in births.families.items() if root not in dict(moved)]
    pairs = [f"{old}:{new}" for old, new in moved]
    return " ".join([str(len(moved)), *pairs, *(["roots", *roots] if roots else [])])


def roll_over(run):
    """Returns the line, and the run that goes on."""
    if run.is_busy():
        return "refused 11 Busy", run
    births = Births(described(run), run.afresh())
    try:
        return f"rolled over {told(births)}", births.new
    except Full:
        return "refused 7 Full", run
