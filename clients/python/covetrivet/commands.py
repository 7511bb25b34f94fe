"""The commands of a session, each once: its line, and how its answer is read. A session has a method of each
name.
"""
from __future__ import annotations

import operator
import re
from collections.abc import Callable
from typing import Generic, TypeVar

from covetrivet import answers, refusals
from covetrivet.answers import TAKEN, Heard, Reply, received, said, taken
from covetrivet.work import Done, Draft, Work, fence

T = TypeVar("T")


class Command(Generic[T]):
    """A line, by its words, and what its answer is read as.

    ValueError where a word is empty or has a byte that no word has, or where the line would be a comment or
    would begin with a tag. With `wait` a server may answer so many seconds later.
    """

    def __init__(self, *words: object, read: Callable[[Heard], T], wait: int | None = None) -> None:
        told = [str(it) for it in words]
        if wait is not None:
            told += ["wait", str(number(wait))]
        self.line, self.read, self.wait = " ".join(told), read, wait or 0
        if not all(re.fullmatch("[!-~]+", it) for it in told) or self.line[:1] in ("", "#", "@"):
            raise ValueError(f"this can't be a command: {self.line!r}")


def number(value: int) -> int:
    """Returns the value as a plain number. TypeError where it is no whole number."""
    return operator.index(value)


def submit(stage: int, *words: int) -> Command[answers.Submitted]:
    """The client submits an element into the stage, with up to four words, 0 to 2^64 - 1."""
    told = [*words, *[0] * (2 - len(words))]
    line = "submit", number(stage), *map(number, told)
    return Command(*line, read=lambda it: answers.Submitted(*it.numbers("submitted N")))


def work(name: str) -> Callable[[Heard], Work | None]:
    def read(heard: Heard) -> Work | None:
        said = heard.said_of(name)
        if said.text == "idle":
            return None
        if " body " not in said.text:
            element, unit, attempt = said.numbers("work N unit N attempt N")
            return Work(element, unit, attempt, hand=heard.hand_of(name))
        return taken(heard, name, *said.formed(f"work {TAKEN}").groups())

    return read


def fenced(work: Work | str | None) -> tuple[str, ...]:
    return () if work is None else (work if isinstance(work, str) else work.fence,)


def done(heard: Heard) -> Done:
    element, unit, first, count = heard.numbers("done N unit N outputs N N")
    return Done(element, unit, range(first, first + count))


def claim(name: str, wait: int | None = None) -> Command[Work | None]:
    """The worker or server takes what waits in its stage with the least id, with a new unit of work. None
    where nothing waits; of a server's session, where nothing comes in `wait` seconds.
    """
    return Command("claim", name, read=work(name), wait=wait)


def claim_next(name: str, wait: int | None = None) -> Command[Work | None]:
    """The worker or server takes in turn what waits in its stage (`next`, which is a word of Python): the
    first behind what it took last so, and behind the last id the first. None as of `claim`.
    """
    return Command("next", name, read=work(name), wait=wait)


def take(name: str, element: int) -> Command[Work | None]:
    """The worker or server takes this element, with a new unit of work."""
    return Command("take", name, number(element), read=work(name))


def commit(name: str, *drafts: Draft, work: Work | None = None) -> Command[Done]:
    """The worker or server commits its unit; a worker with up to four outputs. With `work` it is done only
    where the worker has just that in hand: Other where it hasn't, as where another process has its name.

    TypeError where a draft is none.
    """
    for it in drafts:
        if not isinstance(it, Draft):
            raise TypeError(f"an output of a commit is a Draft, and not {it!r}")
    words = "commit", name, *fenced(work), *drafts
    return Command(*words, read=lambda it: done(it.said_of(name)))


def abort(name: str, work: Work | str | None = None) -> Command[int]:
    """The worker or server aborts its unit; with `work`, or its fence, only where that is it, as a commit.
    The element's id is returned.
    """
    words = "abort", name, *fenced(work)
    return Command(*words, read=lambda it: it.said_of(name).numbers("aborted N")[0])


def join(name: str, stage: int) -> Command[None]:
    """A worker of this stage comes (`worker`, behind the head). BadName where a worker, a server or a client
    has the name.
    """
    return Command("worker", name, number(stage), read=said(f"joined {name}"))


def leave(name: str) -> Command[int | None]:
    """The worker gives up what it has in hand, and is gone. The element that it had in hand is returned, if
    there was one, also where another caller had aborted its unit.
    """

    def read(heard: Heard) -> int | None:
        found = heard.behind("left").behind(name).formed(r"none|(?:aborted|already) (\d+)")
        return int(found[1]) if found[1] else None

    return Command("leave", name, read=read)


def turn(name: str) -> Command[Done | None]:
    """The server takes a turn: it claims an element, and commits its work on it. None where nothing waits."""

    def read(heard: Heard) -> Done | None:
        said = heard.said_of(name)
        return None if said.text == "idle" else done(said)

    return Command("turn", name, read=read)


def prepare(name: str) -> Command[None]:
    """The server prepares its work on what it has claimed."""
    return Command("prepare", name, read=lambda it: said("ready")(it.said_of(name)))


def drop(name: str) -> Command[None]:
    """The server takes nothing any more, and gives up what it has in hand."""
    return Command("drop", name, read=lambda it: said("dropped")(it.said_of(name)))


def kill(element: int) -> Command[answers.Killed]:
    """An element is killed."""
    form = "killed N aborted N"
    return Command("kill", number(element), read=lambda it: answers.Killed(*it.numbers(form)))


def cancel(root: int) -> Command[answers.Cancelled]:
    """A whole request is cancelled."""
    form = "cancelled N killed N"
    return Command("cancel", number(root), read=lambda it: answers.Cancelled(*it.numbers(form)))


def requeue(element: int) -> Command[answers.Requeued]:
    """A parked element is given another round of attempts, three times at most."""
    form = "requeued N round N"
    return Command("requeue", number(element), read=lambda it: answers.Requeued(*it.numbers(form)))


def release(element: int) -> Command[answers.Released]:
    """The unit that holds the element is aborted."""
    form = "released N unit N attempt N"
    return Command("release", number(element), read=lambda it: answers.Released(*it.numbers(form)))


def read(element: int) -> Command[answers.Look]:
    """An element is read."""

    def look(heard: Heard) -> answers.Look:
        ids, words = r"(\d+) stage (\d+) root (\d+)", r"key (\d+) amount (\d+)(?: more (\d+) (\d+))?"
        *told, by, status = heard.formed(rf"{ids} {words} by (\w+) (.+)").groups()
        element, stage, root, zero, one, two, three = (int(it or 0) for it in told)
        return answers.Look(element, stage, root, (zero, one, two, three), by, status)

    return Command("read", number(element), read=look)


def replies(form: str) -> Callable[[Heard], tuple[Reply, ...]]:
    def read(heard: Heard) -> tuple[Reply, ...]:
        listed = (it.split(":", 1) for it in heard.listed(form))
        return tuple(Reply(int(element), answers.words_of(body)) for element, body in listed)

    return read


def reply(root: int) -> Command[tuple[Reply, ...]]:
    """The replies to a request are listed."""
    return Command("reply", number(root), read=replies("replies N"))


def collect(root: int) -> Command[tuple[Reply, ...]]:
    """The replies to a request are listed and killed: each is listed once."""
    return Command("collect", number(root), read=replies("collected N"))


def family(root: int) -> Command[tuple[answers.Member, ...]]:
    """The elements of a request are listed, each with its stage and state."""

    def read(heard: Heard) -> tuple[answers.Member, ...]:
        listed = (it.split(":") for it in heard.listed("family N"))
        return tuple(answers.Member(int(element), int(stage), state) for element, stage, state in listed)

    return Command("family", number(root), read=read)


def errors() -> Command[tuple[int, ...]]:
    """The parked elements are listed."""
    return Command("errors", read=lambda it: it.ids("errors"))


def register(client: str, new: bool = False) -> Command[int]:
    """A client that may crash is registered. One that is already stays as it is; with `new` its next epoch
    begins. The epoch is returned, from 1 on: sends and receives of another one are refused as Fenced.
    """
    words = "register", client, *(("new",) if new else ())
    return Command(*words, read=lambda it: it.behind("registered").behind(client).numbers("N")[0])


def in_epoch(client: str, epoch: int | None) -> str:
    return client if epoch is None else f"{client}/{number(epoch)}"


def forget(client: str) -> Command[None]:
    """A client's counts are gone, and its requests are nobody's."""
    return Command("forget", client, read=said(f"forgotten {client}"))


def send(client: str, nth: int, stage: int, *words: int, epoch: int | None = None) -> Command[answers.Sent]:
    """The client submits an element, as its send of this number. Sent again it submits nothing: Differs where
    that has another stage or other words.
    """
    nth = number(nth)
    told = [nth, number(stage), *map(number, words), *[0] * (2 - len(words))]

    def read(heard: Heard) -> answers.Sent:
        (element,) = heard.of_number("sent", client, nth)
        return answers.Sent(nth, None if element == "done" else int(element))

    return Command("send", in_epoch(client, epoch), *told, read=read)


def receive(
    client: str, nth: int, root: int | None = None, epoch: int | None = None, note: str | None = None,
    wait: int | None = None,
) -> Command[answers.Received | None]:
    """The client takes a reply to any of its requests, or to this one, as its receive of this number. None
    where no reply waits. Asked again it is answered the same, and nothing is taken. Past where the number is
    an earlier one. `note`, a word as a name, is told by `last` from then on. Of a server's session None is
    told where none comes in `wait` seconds.
    """
    nth = number(nth)
    of_root = () if root is None else (number(root),)
    noted = () if note is None else ("note", note)

    def read(heard: Heard) -> answers.Received | None:
        element, *others = heard.of_number("received", client, nth)
        if element == "done":
            raise refusals.Past(heard.command)
        return received(nth, element, *others) if others else None

    return Command("receive", in_epoch(client, epoch), nth, *of_root, *noted, read=read, wait=wait)


def last(client: str) -> Command[answers.Last]:
    """What a client has sent and received. BadName of a worker's name."""
    form = r"sent (\d+)(?: (\d+))? received (\d+)(?: (\d+) (\d+) ([\d:]+))?(?: note (\S+))?"

    def read(heard: Heard) -> answers.Last:
        told = heard.behind("last").behind(client)
        if told.text.startswith("hand "):
            raise refusals.BadName(heard.command, worker=client)
        sent, element, nth, *reply, note = told.formed(form).groups()
        last_reply = received(int(nth), *reply) if reply[0] else None
        return answers.Last(int(sent), int(element) if element else None, int(nth), last_reply, note)

    return Command("last", client, read=read)


def last_work(worker: str) -> Command[answers.LastWork]:
    """What a worker has in hand, and how its last unit ended (`last`, of a worker). BadName of a client's
    name.
    """
    hand = rf"none|lost (\d+)(?: try (\d+))?|{TAKEN}"
    end = r"none|(aborted|lost) (\d+)|done (\d+) unit (\d+) outputs (\d+) (\d)"

    def read(heard: Heard) -> answers.LastWork:
        told = heard.behind("last").behind(worker)
        if told.text.startswith("sent "):
            raise refusals.BadName(heard.command, worker=worker)
        found = told.formed(rf"hand (?:{hand}) (?:{end})").groups()
        lost, tries, *hand_told, how, of, element, unit, first, many = found
        work = taken(heard, worker, *hand_told) if hand_told[0] else None
        ended = answers.UnitEnd(how, int(of)) if how else None
        if element:
            outputs = range(int(first), int(first) + int(many))
            ended = answers.UnitEnd("done", int(element), int(unit), outputs)
        named = work.fence if work else fence(int(lost), int(tries or 0)) if lost else None
        return answers.LastWork(work, int(lost) if lost else None, ended, named)

    return Command("last", worker, read=read)


def count() -> Command[answers.Counts]:
    """The elements are counted by status."""
    form = "waiting N held N consumed N parked N killed N"
    return Command("count", read=lambda it: answers.Counts(*it.numbers(form)))


def depth() -> Command[tuple[answers.Depth, ...]]:
    """Of each stage that has any, how many elements wait, are held and are parked."""

    def read(heard: Heard) -> tuple[answers.Depth, ...]:
        numbers = (Heard(it, heard.command).numbers("N:N:N:N") for it in heard.listed("depth"))
        return tuple(answers.Depth(*it) for it in numbers)

    return Command("depth", read=read)


def holds() -> Command[tuple[answers.Held, ...]]:
    """Each open unit: who has it, and the element that it took."""

    def read(heard: Heard) -> tuple[answers.Held, ...]:
        parts = [it.split(":") for it in heard.listed("holds")]
        return tuple(
            answers.Held(name, int(element), int(unit), None if attempt == "lost" else int(attempt))
            for name, element, unit, attempt in parts
        )

    return Command("holds", read=read)


def waiting(stage: int, start: int = 0) -> Command[tuple[int, ...]]:
    """What waits in a stage, 1 to 999, is listed from an id on (`list`, which is a word of Python), at most
    200 ids. The next list starts at the last one plus 1.
    """
    return Command("list", number(stage), number(start), read=lambda it: it.ids("list N"))


def balance(name: str, register: int) -> Command[int | None]:
    """A register of a server, or None where it has no such one."""

    def read(heard: Heard) -> int | None:
        told = heard.behind("balance").behind(name)
        if re.fullmatch(r"\d+ none", told.text):
            return None
        return told.numbers("N N")[1]

    return Command("balance", name, number(register), read=read)


def total(register: int) -> Command[int]:
    """The sum of a register over all servers (`sum`, which is a word of Python)."""
    return Command("sum", number(register), read=lambda it: it.numbers("sum N N")[1])


def account() -> Command[answers.Account]:
    """How many elements were born, and how many have each status. Busy where a unit of work is open."""
    form = "account born N waiting N held N consumed N parked N killed N"
    return Command("account", read=lambda it: answers.Account(*it.numbers(form)))


def drain() -> Command[bool]:
    """The servers take turns until a round of them finds nothing. False where a thousand rounds each found
    something: more may wait.
    """
    return Command("drain", read=drained)


def drain_next() -> Command[bool]:
    """The same by turns that take elements in turn."""
    return Command("drain", "next", read=drained)


def drained(heard: Heard) -> bool:
    return not heard.formed("drained( so far)?")[1]


def dump() -> Command[answers.Dumped]:
    """All that there is is told as the lines of a session."""

    def read(heard: Heard) -> answers.Dumped:
        first, *lines = heard.text.split("\n")
        if first != f"dumped {len(lines)}" or not all(it.startswith("> ") for it in lines):
            raise answers.NotUnderstood(f"{heard.command!r} was answered {first!r} and {len(lines)} lines")
        return answers.Dumped(tuple(it[2:] for it in lines))

    return Command("dump", read=read)
