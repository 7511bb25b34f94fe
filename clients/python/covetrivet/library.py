"""The C library for Python threads: a manager in this process, and a caller for each thread.

    from covetrivet.library import REPLIES, Draft, Manager

    with Manager(parts=2) as manager, manager.open() as client, manager.open() as server:
        order = client.submit(1, 5, 6)
        with server.claim(1) as work:
            work.commit(Draft(REPLIES, work.words[0] + work.words[1]))
        reply = client.collect_next(order)

A call returns a dataclass or a number, or raises the refusal by its name: one of `covetrivet.refusals`, or of
this module. Its `command` is the call's name. include/covetrivet.h says what each call does.

Threads may share a manager, and also a caller: a lock lets one call at a time through. The interpreter's lock
is given up during a call. A forked process has a copy of its own, which acts on nothing of its parent's; it
must not use what another thread might have been using at the fork.

The shared object that `./library` makes is loaded for the first manager: the file that COVETRIVET_LIBRARY
names, or that of the checkout which this package is in. Else NoLibrary says what to do.
"""
from __future__ import annotations

import threading
from types import TracebackType
from typing import Any

from covetrivet import library_shapes as shapes
from covetrivet.answers import Counts, Look, Released, Reply
from covetrivet.faults import NoLibrary
from covetrivet.library_answers import (
    IDLE, NONE, REFUSALS, Account, BadDraft, ClosedHandle, FullLost, Limits, NoPart, NotAll, OpenHandle,
    OtherManager, RolledOver, Room, TooMany,
)  # fmt: skip
from covetrivet.refusals import Full, Lost, NoneOpen, Refusal
from covetrivet.work import Draft

__all__ = [
    "REPLIES", "Account", "BadDraft", "Caller", "ClosedHandle", "Counts", "Draft", "FullLost", "Limits",
    "Look", "Manager", "NoLibrary", "NoPart", "NotAll", "OpenHandle", "OtherManager", "Released", "Reply",
    "RolledOver", "Room", "TooMany", "Work",
]  # fmt: skip

# The stage of replies.
REPLIES = 15


class Handle:
    """What managers and callers are to the library. One call at a time may use a handle, or even look at it.
    """

    def __init__(self) -> None:
        self._handle = shapes.CHandle()
        self._library = shapes.library()
        # (one that a thread may take twice: a signal's handler may call, since it runs between calls)
        self._lock = threading.RLock()

    def _ask(self, call: str, *given: Any, none: int | None = None) -> Any:
        """Makes a call, and returns what it writes; None where it answers `none`."""
        takes, writes = shapes.CALLS[call]
        words = [shapes.fitting(call, kind, it) for kind, it in zip(takes, given)]
        value = writes() if writes else None
        with self._lock:
            code = self._library.calls[call](self._handle, *words, *([value] if writes else []))
        if code == none:
            return None
        refuse(call, code)
        return value

    def _number(self, call: str, *given: Any) -> int:
        return int(self._ask(call, *given).value)


def refuse(call: str, code: int) -> None:
    """Raises the refusal of this code, if it is one."""
    if code:
        kind = REFUSALS.get(code)
        raise kind(call) if kind else Refusal(call, reason=f"code {code}")


class Manager(Handle):
    """A manager, all of whose callers are at home. BadLimits where a limit is out of its range, NoMemory,
    NoLibrary.

    Used as a context it is closed in the end.
    """

    def __init__(
        self, parts: int = 4, rows: int = 256, units: int = 1024, attempts: int = 3, spare: int = 0
    ) -> None:
        super().__init__()
        limits = shapes.limits_of("make", Limits(parts, rows, units, attempts, spare))
        refuse("make", self._library.make(limits, self._handle))

    def open(self, number: int | None = None) -> Caller:
        """Opens the caller at home with the least number, or with this one. NoPart where all are open, or
        that one is; NoMemory.
        """
        caller = Caller(self)
        if number is None:
            self._ask("open", caller._handle)
        else:
            self._ask("open_number", number, caller._handle)
        return caller

    def hand_back(self, caller: Caller) -> None:
        """Takes a caller home again, in any order. Its unit of work stays open. OtherManager where it isn't
        this manager's.

        A caller that is used as a context does so by itself.
        """
        if caller.manager is not self:
            raise OtherManager("hand_back")
        with caller._lock:
            self._ask("hand_back", caller._handle)
            caller._mark = None

    def limits(self) -> Limits:
        """The limits that the manager has."""
        it = self._ask("get_limits")
        return Limits(it.parts, it.rows, it.units, it.attempts, it.spare)

    def capacity(self) -> int:
        """How many elements it has room for, at most 10240."""
        return self._number("capacity")

    def account(self) -> Account:
        """How many elements there are of each status. NotAll where not all callers are at home."""
        with self._lock:
            all = [self._ask("account", stage) for stage in range(REPLIES + 1)]
        counts = [Counts(it.waiting, it.held, it.consumed, it.parked, it.killed) for it in all]
        return Account(counts[0], dict(enumerate(counts[1:], 1)))

    def gather(self) -> None:
        """All callers look until all have seen one history. NotAll where not all are at home."""
        self._ask("gather")

    def rollover(self, limits: Limits | None = None) -> RolledOver:
        """What waits, is parked or is held, replies too, goes on in a new manager, with the same limits or
        these. This is the new one then, in which elements and requests have other ids. What a caller had in
        hand, the caller of the same number has (`Caller.in_hand`), and no other has a unit open.

        NotAll where not all callers are at home, BadLimits also where `attempts` differs or there is no
        caller of a number that has a unit open, Full where these limits are too small, NoMemory: it stands as
        it did.
        """
        with self._lock:
            given = shapes.limits_of("roll_over", limits or self.limits())
            count = self._number("roll_over", given)
            moved = [self._ask("moved_at", place) for place in range(count)]
        roots = {it.old_root: it.new_root for it in moved}
        holders = {it.holder: it.new_id for it in moved if it.holder != shapes.NOBODY}
        return RolledOver({it.old_id: it.new_id for it in moved}, roots=roots, holders=holders)

    def close(self) -> None:
        """Gives up the manager. Callers that are open go on."""
        with self._lock:
            self._library.give_up(self._handle)

    def __enter__(self) -> Manager:
        return self

    def __exit__(
        self, kind: type[BaseException] | None, fault: BaseException | None, trace: TracebackType | None
    ) -> None:
        self.close()

    def __del__(self) -> None:
        if hasattr(self, "_library"):
            self._library.give_up(self._handle)


class Caller(Handle):
    """A way to act on a manager, by `manager.open()`. Used as a context it is handed back in the end. So is
    one that nothing holds any more.

    Each call may be refused as ClosedHandle. An element of an id that was never born is NotThere.
    """

    def __init__(self, manager: Manager) -> None:
        super().__init__()
        self.manager = manager
        # (what the Work has whose unit is open)
        self._mark: object | None = None

    # ---- of a client

    def submit(self, stage: int, zero: int = 0, one: int = 0, two: int = 0, three: int = 0) -> int:
        """Puts an element into the queue of a stage, 1 to 14. Its id. BadStage, Full; BadDraft where a word
        isn't 0 to 2^64 - 1.
        """
        return self._number("submit", stage, shapes.body_of("submit", zero, one, two, three))

    def read(self, element: int) -> Look:
        """The element, and how it stands."""
        return shapes.look_of(self._ask("read", element))

    def rounds(self, element: int) -> int:
        """How many further rounds of attempts it was given, 0 to 3."""
        return self._number("rounds", element)

    def reply(self, root: int, start: int = 0) -> int | None:
        """The least id from `start` on of a waiting reply to this request."""
        found = self._ask("reply", root, start, none=NONE)
        return None if found is None else int(found.value)

    def next_error(self, start: int = 0) -> int | None:
        """The least id from `start` on of an element that is parked."""
        found = self._ask("next_error", start, none=NONE)
        return None if found is None else int(found.value)

    def family(self, root: int) -> list[Look]:
        """The elements of a request by ascending ids, and how each stands."""
        members: list[Look] = []
        start = 0
        while found := self._ask("family", root, start, none=NONE):
            members.append(shapes.look_of(found))
            start = members[-1].element + 1
        return members

    def collect(self, element: int) -> Reply:
        """Takes the reply with this id, once. BadStage where it is none, AlreadyKilled, Busy."""
        it = self._ask("collect", element)
        return Reply(it.id, shapes.words_of(it))

    def collect_next(self, root: int) -> Reply | None:
        """Takes the waiting reply with the least id to this request, once, if there is one. Busy."""
        it = self._ask("collect_next", root, none=NONE)
        return None if it is None else Reply(it.id, shapes.words_of(it))

    def requeue(self, element: int) -> int:
        """Gives a parked element another round of attempts. Which, 1 to 3. NotParked, NoRound."""
        return self._number("requeue", element)

    def kill(self, element: int) -> int:
        """Kills an element. How many units that held it were aborted. Consumed, AlreadyKilled, behind which
        units may have been aborted too; Busy.
        """
        return self._number("kill", element)

    def cancel(self, root: int) -> int:
        """Kills each element of a request but replies and what is finished. How many. Busy."""
        return self._number("cancel", root)

    def release(self, element: int) -> Released:
        """Aborts the unit that holds an element. Which that was. NotHeld, Busy."""
        it = self._ask("release", element)
        return Released(element, it.unit, it.attempt)

    # ---- of a server

    def claim(self, stage: int) -> Work | None:
        """Takes the waiting element with the least id of a stage, 1 to 14, if there is one. BadStage, Busy,
        NoUnit.
        """
        return self._claim("claim", stage)

    def claim_next(self, stage: int) -> Work | None:
        """Takes the next one behind that which this caller took last so, as in a circle. BadStage, Busy,
        NoUnit.
        """
        return self._claim("claim_next", stage)

    def claim_id(self, element: int) -> Work:
        """Takes the element with this id. NotWaiting, BadStage where it is a reply, Busy, NoUnit."""
        with self._lock:
            return Work(self, self._ask("claim_id", element))

    def in_hand(self, element: int) -> Work | None:
        """The unit that it has open, where that holds this element: as after a rollover, whose `holders` has
        the element of each caller. NotThere.
        """
        with self._lock:
            it = self._ask("read", element)
            is_its = it.status.unit // self.manager.limits().units == self.number()
            if it.status.kind != shapes.HELD or not is_its or not self.has_open():
                return None
            return Work(self, shapes.CWork(it.element, it.status.unit, it.status.attempts), self._mark)

    def _claim(self, call: str, stage: int) -> Work | None:
        with self._lock:
            it = self._ask(call, stage, none=IDLE)
            return None if it is None else Work(self, it)

    def commit(self, *drafts: Draft) -> range:
        """Commits the open unit with these outputs, at most four. Their ids. Lost, Full, FullLost: the unit
        is ended, by Full as an attempt that failed, and else by another caller, whose doing it is what became
        of the element. NoneOpen, TooMany, BadDraft: nothing has changed.
        """
        out = (shapes.CDraft * max(1, len(drafts)))()
        for at, draft in zip(out, drafts):
            if not 1 <= draft.stage <= REPLIES:
                raise BadDraft("commit")
            at.stage = draft.stage
            at.body = shapes.body_of("commit", draft.zero, draft.one, draft.two, draft.three)
        with self._lock:
            try:
                born = self._ask("commit", out, len(drafts))
            except (Lost, Full):
                self._mark = None
                raise
            self._mark = None
        return range(born.first, born.first + born.count)

    def abort(self) -> None:
        """Gives up the open unit: its element waits again, or is parked. NoneOpen; Lost where another caller
        had aborted it.
        """
        with self._lock:
            self._mark = None
            self._ask("abort")

    # ---- of a caller alone, and of two

    def number(self) -> int:
        """The caller's number, from 0 on."""
        return self._number("number")

    def room(self) -> Room:
        """What is left to it."""
        it = self._ask("room")
        return Room(it.rows, it.units)

    def has_open(self) -> bool:
        """Whether it has a unit of work open."""
        return bool(self._number("has_open"))

    def low(self, stage: int, part: int) -> int:
        """How many first rows of a part have nothing alive of a stage, 1 to 15, or with 0 of any, as it last
        found it.
        """
        return self._number("low", stage, part)

    def seen_blocks(self) -> int:
        """How many spare blocks were drawn, as it last found it."""
        return self._number("seen_blocks")

    def meet(self, other: Caller) -> None:
        """The two show each other what they have seen. OtherManager where they aren't two of one manager."""
        if other.manager is not self.manager or other is self:
            raise OtherManager("meet")
        # (in one order, so that two threads don't wait for each other)
        first, second = sorted((self, other), key=id)
        with first._lock, second._lock:
            self._ask("meet", other._handle)

    def close(self) -> None:
        """Takes it home, as `hand_back` does, in any state: where it was handed back, or its manager is
        closed too.
        """
        with self._lock, self.manager._lock:
            self._mark = None
            refuse("close", self._library.close(self.manager._handle, self._handle))

    def __enter__(self) -> Caller:
        return self

    def __exit__(
        self, kind: type[BaseException] | None, fault: BaseException | None, trace: TracebackType | None
    ) -> None:
        self.close()

    def __del__(self) -> None:
        # (in a forked process a thread that isn't there may hold the manager's lock)
        if hasattr(self, "_mark") and self.manager._lock.acquire(timeout=1):
            try:
                self.close()
            finally:
                self.manager._lock.release()


class Work:
    """An open unit of work and the element that it holds. Used as a context it is aborted in the end unless
    it was committed. One that isn't open any more ends no other: its calls are refused as NoneOpen.
    """

    def __init__(self, caller: Caller, it: shapes.CWork, mark: object | None = None) -> None:
        self.caller = caller
        self.element: int = it.element.id
        self.stage: int = it.element.stage
        self.root: int = it.element.root
        self.words = shapes.words_of(it.element)
        self.unit: int = it.unit
        self.attempt: int = it.attempt
        # (its own: a later unit may have the same number, behind a rollover)
        self._mark = caller._mark = mark or object()

    @property
    def is_open(self) -> bool:
        """Whether it was neither committed nor aborted by its caller, nor left as that was handed back.
        Another one may have aborted it.
        """
        return self.caller._mark is self._mark

    def commit(self, *drafts: Draft) -> range:
        """Consumes the element and makes these outputs, as Caller.commit does."""
        with self.caller._lock:
            self._must_be_open("commit")
            return self.caller.commit(*drafts)

    def abort(self) -> None:
        """Gives it up, as Caller.abort does."""
        with self.caller._lock:
            self._must_be_open("abort")
            self.caller.abort()

    def _must_be_open(self, call: str) -> None:
        if not self.is_open:
            raise NoneOpen(call)

    def __enter__(self) -> Work:
        return self

    def __exit__(
        self, kind: type[BaseException] | None, fault: BaseException | None, trace: TracebackType | None
    ) -> None:
        if self.is_open:
            try:
                self.abort()
            except Lost:
                pass
