"""A client of Covetrivet's live sessions: the manager runs as a child process, and each command is a call.

    from covetrivet import Draft, Session, refusals, submit

    with Session(["server till eager 2 1 add", "worker packer 1"]) as session:
        session.submit(1, 5, 6)
        work = session.claim("packer")
        work.commit(Draft(2, 0, 10), Draft(15, 5, 6))

A call returns a dataclass, or raises the refusal by its name (`refusals.Busy`). Several commands are sent at
once in a batch:

    with session.batch() as batch:
        asked = [batch.add(submit(1, customer, price)) for customer, price in orders]
    ids = [it.value.element for it in asked]

One process owns a session, and all its threads may call it. Ids are 0, 1, 2, .. in the order of births, for
good.

`dump` returns all that there is as lines, with which a new session goes on: `Session(session.dump().lines)`.
`Session.open` has a session whose lines are in a journal on the disk before they are answered: it goes on
after a crash. (A session with a log of the client's own is gone on from by `Session.from_log`.)

A `Client` may crash: what it sends is submitted once, and a reply that it was working on is received again.

`connect` returns the session that a server has (`covetrivet serve`), which many processes share. A `Worker`
is the loop of one of them, and `covetrivet.aio.connect` is for asyncio.

`covetrivet.library` has the manager in this process, for its threads, by the C library.

docs/LIVE.md says what each line of a session does. It needs Python 3.10, a Unix, and the standard library
alone.
"""
from covetrivet import aio, refusals
from covetrivet.answers import (
    Account, Cancelled, Counts, Depth, Dumped, Heard, Held, Killed, Last, LastWork, Look, Member,
    NotUnderstood, Received, Released, Reply, Requeued, Sent, Submitted, UnitEnd,
)  # fmt: skip
from covetrivet.batch import Batch, Later
from covetrivet.client import Client
from covetrivet.commands import (
    Command, abort, account, balance, cancel, claim, claim_next, collect, commit, count, depth,
    drain, drain_next, drop, dump, errors, family, forget, holds, join, kill, last, last_work, leave,
    prepare, read, receive, register, release, reply, requeue, send, submit, take, total, turn, waiting,
)  # fmt: skip
from covetrivet.faults import (
    Disconnected, JournalFault, LogFault, NoProgram, SessionBroken, SessionClosed, SessionEnded,
    SessionFault, Unknown,
)  # fmt: skip
from covetrivet.program import version
from covetrivet.remote import connect
from covetrivet.session import Session
from covetrivet.work import Done, Draft, Work
from covetrivet.worker import Worker

__all__ = [
    "Account", "Batch", "Cancelled", "Client", "Command", "Counts", "Depth", "Disconnected", "Done",
    "Draft", "Dumped", "Heard", "Held", "JournalFault", "Killed", "Last", "LastWork", "Later",
    "LogFault", "Look", "Member", "NoProgram", "NotUnderstood", "Received", "Released", "Reply",
    "Requeued", "Sent", "Session", "SessionBroken", "SessionClosed", "SessionEnded", "SessionFault",
    "Submitted", "UnitEnd", "Unknown", "Work", "Worker", "abort", "account", "aio", "balance", "cancel",
    "claim", "claim_next", "collect", "commit", "connect", "count", "depth", "drain", "drain_next",
    "drop", "dump", "errors", "family", "forget", "holds", "join", "kill", "last", "last_work", "leave",
    "prepare", "read", "receive", "refusals", "register", "release", "reply", "requeue", "send",
    "submit", "take", "total", "turn", "waiting",
]  # fmt: skip

__version__ = version()
