"""`covetrivet convert`: a dump of the sessions up to 0.22.1, as the head of a session.

There a dump told what was alive alone, by ids that began anew with each rollover. Comments of the package
said by which ids clients knew it; where there are none it is by those of the dump. These ids are kept. Of a
request whose client's element was over that is told as consumed, by one unit, of which all else of it is.
Where it has a greater id than something that was made of it, that has a new id, which a comment tells.
"""
from __future__ import annotations

import re
import sys
from collections import Counter
from collections.abc import Callable, Iterable, Iterator, Sequence
from dataclasses import dataclass, field

from covetrivet.lines import is_empty

WRONG_WORDS, BAD_DUMP, NO_DUMP = 64, 65, 66
GONE, REPLIES = "gone", "15"
NO_REQUESTS = ["0", GONE, "0", GONE, GONE, "0:0:0:0"]
# Of a client: its first epoch, and neither what it sent last nor a note. (Of a hand the try, 0, isn't known.)
UNTOLD = "1 0:0:0:0:0 -"
# What has no counterpart: rows, units and places.
LEFT_OUT = ("rows", "units", "spare", "workers", "restore")


class BadDump(ValueError):
    """The lines are no dump of those sessions. The text says why."""


@dataclass(frozen=True)
class Alive:
    """An element, by the dump's ids. `root` is that of a request whose client's element was over."""

    element: int
    attempts: int
    rounds: int
    out: str
    root: int | None
    holder: str | None


@dataclass
class Ids:
    """By which ids clients knew the elements of a dump, as its comments say."""

    rollovers: int = 0
    lasting: dict[int, int] = field(default_factory=dict)
    lost: dict[str, int] = field(default_factory=dict)

    def note(self, comment: str) -> None:
        found = re.fullmatch(r"# covetrivet: (?:rollovers|(\d+) lasts as|([a-z]{1,8}) lost) (\d+)", comment)
        if not found:
            return
        if found[1]:
            self.lasting[int(found[1])] = int(found[3])
        elif found[2]:
            self.lost[found[2]] = int(found[3])
        else:
            self.rollovers = int(found[3])

    def told(self, element: int) -> int:
        return self.lasting.get(element, self.rollovers << 32 | element)


class Numbers:
    """Ids or units: those that are named, and others behind them."""

    def __init__(self) -> None:
        self.next = 0

    def name(self, number: int) -> int:
        self.next = max(self.next, number + 1)
        return number

    def new(self) -> int:
        return self.name(self.next)


class Dump:
    """What the lines of a dump say. ValueError of one that says nothing."""

    def __init__(self) -> None:
        self.limit, self.ids = 3, Ids()
        # the lines of each server; stages by the workers; clients in their order, with what is noted of them
        self.servers: dict[str, list[str]] = {}
        self.workers: dict[str, str] = {}
        self.clients: dict[str, list[str]] = {}
        self.alive: dict[int, Alive] = {}
        self.roots: dict[int, str] = {}
        # what each worker has in hand, and has lost
        self.hands: dict[str, int] = {}
        self.lost: dict[str, int] = {}
        self.requests: dict[int, str] = {}
        self.ended: dict[str, list[str]] = {}
        self.by_word: dict[str, Callable[[list[str]], None]] = {
            "limit": self.read_limit, "server": self.read_server, "start": self.read_start,
            "worker": self.read_worker, "register": self.read_client, "client": self.read_client,
            "alive": self.read_alive, "held": self.read_held, "lost": self.read_lost,
            "request": self.read_request, "ended": self.read_ended, "drop": self.read_drop,
        }  # fmt: skip

    def read(self, line: str) -> None:
        if is_empty(line):
            self.ids.note(line)
            return
        word, *others = line.split()
        if word not in LEFT_OUT:
            if word not in self.by_word:
                raise ValueError("no line of a dump begins so")
            self.by_word[word](others)

    def read_limit(self, words: list[str]) -> None:
        (limit,) = words
        self.limit = int(limit)

    def read_server(self, words: list[str]) -> None:
        self.servers[words[0]] = [" ".join(["server", *words])]

    def read_start(self, words: list[str]) -> None:
        name, _register, value = words
        if int(value):
            self.servers[name].append(" ".join(["start", *words]))

    def read_drop(self, words: list[str]) -> None:
        (name,) = words
        self.servers[name].append(f"dropped {name}")

    def read_worker(self, words: list[str]) -> None:
        name, stage = words
        # (a place that no worker has is called by its number)
        if not name.startswith("-"):
            self.workers[name] = stage

    def read_client(self, words: list[str]) -> None:
        name, *noted = words
        if len(noted) not in (0, 6):
            raise ValueError("it has other words")
        self.clients[name] = noted or NO_REQUESTS

    def read_alive(self, words: list[str], holder: str | None = None) -> None:
        element, attempts, rounds, out, *of = words
        if not int(holder is not None) <= int(attempts) <= self.limit or int(rounds) > 3:
            raise ValueError("it was tried too often, or too seldom")
        if int(element) in self.alive:
            raise ValueError("it is told twice")
        root = self.root_of(*of) if of and of[0] != element else None
        tried = int(attempts), int(rounds)
        if int(element) in self.roots or root is None and out.startswith(f"{REPLIES}:"):
            raise ValueError("it is over as well, or is a reply to nothing")
        self.alive[int(element)] = Alive(int(element), *tried, whole(out), root, holder)
        if holder is not None:
            self.hands[holder] = int(element)

    def root_of(self, root: str, out: str) -> int:
        if self.roots.setdefault(int(root), whole(out)) != whole(out):
            raise ValueError("its root is told in two ways")
        if int(root) in self.alive:
            raise ValueError("its root is alive")
        return int(root)

    def read_held(self, words: list[str]) -> None:
        self.free_hand(words[0])
        self.read_alive(words[1:], words[0])

    def read_lost(self, words: list[str]) -> None:
        name, element = words
        self.free_hand(name)
        self.lost[name] = int(element)

    def free_hand(self, name: str) -> None:
        """ValueError unless the worker is there and has nothing in hand."""
        if name not in self.workers or name in self.lost or name in self.hands:
            raise ValueError("there is no such worker, or it has something in hand")

    def read_request(self, words: list[str]) -> None:
        name, root = words
        if name not in self.clients or int(root) in self.requests:
            raise ValueError("there is no such client, or another one has this request")
        self.requests[int(root)] = name

    def read_ended(self, words: list[str]) -> None:
        name, *end = words
        forms = {"done": 5, "aborted": 2, "lost": 2, "full": 2}
        if name not in self.workers or len(end) != forms.get(end[0]):
            raise ValueError("there is no such worker, or it has other words")
        self.ended[name] = end


def whole(out: str) -> str:
    """Returns a stage and a body with all its four words."""
    words = [str(int(it)) for it in out.split(":")]
    if not 3 <= len(words) <= 5:
        raise ValueError("a body has two to four words")
    return ":".join([*words, "0", "0"][:5])


class Head:
    """The lines that a dump makes."""

    def __init__(self, dump: Dump) -> None:
        self.dump = dump
        self.ids, self.units, self.renamed = Numbers(), Numbers(), dict[int, int]()
        noted = [*self.noted()]
        for element in (*dump.alive, *dump.roots, *map(int, {*noted} - {GONE})):
            self.told(element)
        for name in dump.lost:
            self.lost(name)
        for end in dump.ended.values():
            if end[0] == "done":
                self.units.name(int(end[2]))
        # the id of all that is gone: no element has it
        self.nowhere = self.ids.new() if GONE in noted else 0
        for it in sorted(dump.alive.values(), key=lambda it: self.told(it.element)):
            if it.root is not None and self.told(it.element) < self.told(it.root):
                self.renamed[it.element] = self.ids.new()
        # the unit by which each root was consumed, and by which each worker holds, or has lost, what it has
        self.ends = {root: self.units.new() for root in sorted(dump.roots)}
        self.hands = {name: self.units.new() for name in sorted([*dump.hands, *dump.lost])}

    def noted(self) -> Iterator[str]:
        """Yields the ids that are noted of workers and clients."""
        for end in self.dump.ended.values():
            yield from (end[1], *end[3:4])
        for sent, element, received, reply, root, _ in self.dump.clients.values():
            yield from [element] * (sent != "0") + [reply, root] * (received != "0")

    def told(self, element: int) -> int:
        return self.renamed.get(element) or self.ids.name(self.dump.ids.told(element))

    def lost(self, name: str) -> int:
        """Returns what the worker knows as lost: where that was before a rollover, by an id of then."""
        known = self.dump.ids.lost.get(name)
        return self.told(self.dump.lost[name]) if known is None else self.ids.name(known)

    def id_of(self, word: str) -> int:
        return self.nowhere if word == GONE else self.told(int(word))

    def lines(self) -> Iterator[str]:
        dump = self.dump
        yield from (f"# {dump.ids.told(it)} is {new}" for it, new in self.renamed.items())
        yield from (f"limit {dump.limit}", f"max {2**64 - 1}", "keep 1000")
        yield f"numbers {self.ids.next} {self.units.next} {len(dump.clients)}"
        for of_server in dump.servers.values():
            yield from of_server
        for name, stage in sorted(dump.workers.items()):
            yield f"worker {name} {stage}"
            yield from self.of_worker(name)
        for name, noted in sorted(dump.clients.items()):
            sent, element, received, reply, root, body = noted
            counted = f"{sent} {self.id_of(element) if int(sent) else 0} {received}"
            last = f"{self.id_of(reply)} {self.id_of(root)}" if int(received) else "0 0"
            yield f"client {name} {[*dump.clients].index(name)} {counted} {last} {body} {UNTOLD}"
        yield from (line for _, line in sorted([*self.roots(), *map(self.element, dump.alive.values())]))
        settled = Counter(int(out.split(":")[0]) for out in dump.roots.values())
        yield from (f"settled {stage} {many} 0" for stage, many in sorted(settled.items()))
        yield "restore"

    def of_worker(self, name: str) -> Iterator[str]:
        if name in self.hands:
            held = self.dump.hands.get(name)
            in_hand = self.lost(name) if held is None else self.told(held)
            yield f"hand {name} {in_hand} {self.hands[name]} 0"
        if name in self.dump.ended:
            how, element, *done = self.dump.ended[name]
            # (where the rows didn't suffice the unit was aborted)
            said = f"{'aborted' if how == 'full' else how} {self.id_of(element)}"
            if done:
                unit, first, many = done
                said += f" {unit} {self.id_of(first)} {many}"
            yield f"ended {name} {said}"

    def owner(self, root: int) -> str:
        name = self.dump.requests.get(root)
        return "nobody" if name is None else str([*self.dump.clients].index(name))

    def roots(self) -> Iterator[tuple[int, str]]:
        for root, out in self.dump.roots.items():
            told = self.told(root)
            yield told, f"element {told} {out} {told} client {self.owner(root)} 0 consumed {self.ends[root]}"

    def element(self, it: Alive) -> tuple[int, str]:
        told, root = self.told(it.element), it.element if it.root is None else it.root
        maker = "client" if it.root is None else self.ends[root]
        state = "parked" if it.attempts == self.dump.limit else "waiting"
        status = f"held {self.hands[it.holder]} {it.attempts}" if it.holder else f"{state} {it.attempts}"
        of = f"{self.told(root)} {maker} {self.owner(root)} {it.rounds}"
        return told, f"element {told} {it.out} {of} {status}"


def converted(lines: Iterable[str]) -> list[str]:
    """Returns the head of a session that goes on from these lines of a dump, which may stand in an answer,
    each behind `> `. BadDump where they are none.
    """
    given = list(lines)
    quoted = [it[2:] for it in given if it.startswith("> ")]
    dump = Dump()
    for line in quoted or given:
        try:
            dump.read(line)
        except (ValueError, LookupError) as why:
            raise BadDump(f"{line!r} can't be converted: {why}") from why
    return list(Head(dump).lines())


def convert(words: Sequence[str]) -> int:
    """Returns the exit status: 64 with wrong words, 65 where it is no dump, 66 where it can't be read."""
    if len(words) > 1 or words and words[0].startswith("-"):
        print("covetrivet convert [DUMP]: one file at most, else the standard input", file=sys.stderr)
        return WRONG_WORDS
    try:
        with open(words[0] if words else 0, encoding="ascii", closefd=bool(words)) as file:
            head = converted(file.read().splitlines())
    except OSError as fault:
        print(f"covetrivet: can't read {fault.filename or 'the input'}: {fault.strerror}", file=sys.stderr)
        return NO_DUMP
    except ValueError as why:
        print(f"covetrivet: {why}", file=sys.stderr)
        return BAD_DUMP
    print("\n".join(head))
    return 0
