"""What crosses to the C library, by ctypes: the types and calls of include/covetrivet.h. And where the shared
object is that has them.
"""
from __future__ import annotations

import ctypes
import operator
import os
import threading
from collections.abc import Callable
from ctypes import POINTER, c_size_t, c_uint8, c_uint16, c_uint32, c_uint64, c_void_p
from dataclasses import asdict, dataclass
from typing import Any

from covetrivet import program, refusals
from covetrivet.answers import Look
from covetrivet.faults import NoLibrary
from covetrivet.library_answers import BadDraft, Limits
from covetrivet.refusals import Refusal
from covetrivet.work import Words

VARIABLE = "COVETRIVET_LIBRARY"
MADE = "out/library/lib/libcovetrivet.so"
HOW = (
    f"Name its file by the environment variable {VARIABLE}: "
    f"in a checkout of Covetrivet, ./library makes {MADE}."
)


# ---- types, in the order of the header

CWords = c_uint64 * 4


class CHandle(ctypes.Structure):
    _fields_ = [("at", c_void_p)]


class CLimits(ctypes.Structure):
    _fields_ = [
        ("parts", c_uint16), ("rows", c_uint16), ("units", c_uint16), ("spare", c_uint16),
        ("attempts", c_uint8),
    ]  # fmt: skip


class CElement(ctypes.Structure):
    _fields_ = [
        ("body", CWords), ("id", c_uint32), ("root", c_uint32), ("by", c_uint32), ("stage", c_uint8),
    ]  # fmt: skip


class CWork(ctypes.Structure):
    _fields_ = [("element", CElement), ("unit", c_uint16), ("attempt", c_uint8)]


class CStatus(ctypes.Structure):
    _fields_ = [("unit", c_uint16), ("kind", c_uint8), ("attempts", c_uint8)]


class CLook(ctypes.Structure):
    _fields_ = [("element", CElement), ("status", CStatus)]


class CDraft(ctypes.Structure):
    _fields_ = [("body", CWords), ("stage", c_uint8)]


class CBorn(ctypes.Structure):
    _fields_ = [("first", c_uint32), ("count", c_uint8)]


class CReleased(ctypes.Structure):
    _fields_ = [("unit", c_uint16), ("attempt", c_uint8)]


class CLeft(ctypes.Structure):
    _fields_ = [("rows", c_uint16), ("units", c_uint16)]


class CCounts(ctypes.Structure):
    _fields_ = [(it, c_uint32) for it in ("waiting", "held", "consumed", "parked", "killed")]


class CMoved(ctypes.Structure):
    _fields_ = [(it, c_uint32) for it in ("old_id", "new_id", "old_root", "new_root", "holder")]


# Their sizes are told by the library, by their places here.
SHAPES: list[type[ctypes.Structure]] = [
    CLimits, CElement, CWork, CStatus, CLook, CDraft, CBorn, CReleased, CLeft, CCounts, CMoved,
    # (a manager's handle, and a caller's)
    CHandle, CHandle,
]  # fmt: skip


# The holder of what no caller holds, and the kind of a status that is held.
NOBODY, HELD = 65_536, 1


# ---- calls

# What each call takes besides its handle, and the type that it writes, if it writes. A c_uint8 is a stage, a
# c_uint16 a part and a c_uint32 an id.
CALLS: dict[str, tuple[list[Any], Any]] = {
    "open": ([POINTER(CHandle)], None),
    "open_number": ([c_uint16, POINTER(CHandle)], None),
    "hand_back": ([POINTER(CHandle)], None),
    "get_limits": ([], CLimits),
    "capacity": ([], c_uint32),
    "account": ([c_uint8], CCounts),
    "gather": ([], None),
    "roll_over": ([POINTER(CLimits)], c_size_t),
    "moved_at": ([c_size_t], CMoved),
    "submit": ([c_uint8, CWords], c_uint32),
    "read": ([c_uint32], CLook),
    "rounds": ([c_uint32], c_uint8),
    "reply": ([c_uint32, c_uint32], c_uint32),
    "next_error": ([c_uint32], c_uint32),
    "family": ([c_uint32, c_uint32], CLook),
    "collect": ([c_uint32], CElement),
    "collect_next": ([c_uint32], CElement),
    "requeue": ([c_uint32], c_uint8),
    "kill": ([c_uint32], c_uint8),
    "cancel": ([c_uint32], c_uint32),
    "release": ([c_uint32], CReleased),
    "claim": ([c_uint8], CWork),
    "claim_next": ([c_uint8], CWork),
    "claim_id": ([c_uint32], CWork),
    "abort": ([], None),
    "commit": ([POINTER(CDraft), c_size_t], CBorn),
    "number": ([], c_uint16),
    "room": ([], CLeft),
    "has_open": ([], c_uint8),
    "low": ([c_uint8, c_uint16], c_uint16),
    "seen_blocks": ([], c_uint16),
    "meet": ([POINTER(CHandle)], None),
}

BY_CLIENT = 65536

# What numbers of each type are below, and what they are refused as where they aren't.
RANGES: dict[Any, tuple[int, type[Refusal]]] = {
    c_uint8: (1 << 8, refusals.BadStage),
    c_uint16: (1 << 16, refusals.BadLimits),
    c_uint32: (1 << 32, refusals.NotThere),
}


@dataclass(frozen=True)
class Library:
    """The calls of a shared object. Each of `calls` answers a code."""

    calls: dict[str, Callable[..., int]]
    make: Callable[[CLimits, CHandle], int]
    give_up: Callable[[CHandle], int]
    close: Callable[[CHandle, CHandle], int]


def fitting(call: str, kind: Any, value: Any) -> Any:
    """Returns what a call takes. A number that doesn't fit is refused here: ctypes would cut it off."""
    if kind not in RANGES:
        return value
    number = operator.index(value)
    most, wrong = RANGES[kind]
    if not 0 <= number < most:
        raise wrong(call)
    return number


def body_of(call: str, *words: int) -> Any:
    """Returns four words as a body. BadDraft where one doesn't fit."""
    body = CWords(*words)
    if tuple(body) != words:
        raise BadDraft(call)
    return body


def limits_of(call: str, limits: Limits) -> CLimits:
    """Returns the limits. BadLimits where one doesn't fit; the library refuses what is out of its range."""
    it = CLimits(limits.parts, limits.rows, limits.units, limits.spare, limits.attempts)
    if any(getattr(it, name) != value for name, value in asdict(limits).items()):
        raise refusals.BadLimits(call)
    return it


def look_of(it: CLook) -> Look:
    """Returns a look, as sessions tell it."""
    element, status = it.element, it.status
    by = "client" if element.by == BY_CLIENT else str(element.by)
    told = (
        f"waiting {status.attempts}",
        f"held {status.unit} {status.attempts}",
        f"consumed {status.unit}",
        f"parked {status.attempts}",
        "killed",
    )
    return Look(element.id, element.stage, element.root, words_of(element), by, told[status.kind])


def words_of(it: CElement) -> Words:
    """Returns an element's body."""
    zero, one, two, three = it.body
    return zero, one, two, three


# ---- the shared object

# (one that a signal's handler may take again)
LOADING = threading.RLock()
LOADED: list[Library] = []


def library() -> Library:
    """Returns the library, which is loaded once. NoLibrary where it can't be."""
    with LOADING:
        if not LOADED:
            LOADED.append(load(find()))
        return LOADED[0]


def find() -> str:
    """Returns the shared object that the environment names, or that `./library` made in the checkout.

    NoLibrary where there is neither.
    """
    named = os.environ.get(VARIABLE)
    if named:
        return named
    top = program.checkout()
    if top and (top / MADE).is_file():
        return str(top / MADE)
    raise NoLibrary(f"There is no shared object of the C library. {HOW}")


def load(path: str) -> Library:
    """Returns the calls of the shared object at this path, each with its types.

    NoLibrary where it can't be loaded, lacks a call, or has types of other sizes.
    """
    try:
        shared = ctypes.CDLL(path)
        shared.covetrivet_size.argtypes, shared.covetrivet_size.restype = [c_uint32], c_size_t
        sizes = [shared.covetrivet_size(place) for place in range(len(SHAPES) + 1)]
        calls = {name: getattr(shared, f"covetrivet_{name}") for name in CALLS}
        make, give_up, close = shared.covetrivet_make, shared.covetrivet_give_up, shared.covetrivet_close
    except (OSError, AttributeError) as fault:
        raise NoLibrary(f"The shared object {path!r} can't be used: {fault}. {HOW}") from fault
    if sizes != [*map(ctypes.sizeof, SHAPES), 0]:
        raise NoLibrary(f"The shared object {path!r} is of another version than this package. {HOW}")
    for name, (takes, writes) in CALLS.items():
        calls[name].argtypes = [POINTER(CHandle), *takes, *([POINTER(writes)] if writes else [])]
        calls[name].restype = c_uint32
    make.argtypes, make.restype = [POINTER(CLimits), POINTER(CHandle)], c_uint32
    give_up.argtypes, give_up.restype = [POINTER(CHandle)], c_uint32
    close.argtypes, close.restype = [POINTER(CHandle)] * 2, c_uint32
    return Library(calls, make, give_up, close)
