"""Calls that a type checker has to refuse, each in its line: tools/clients counts that mypy refuses all of
them.
"""
from __future__ import annotations

from covetrivet import Batch, Session, Submitted, Work, claim, connect, library, submit


def refused(session: Session, batch: Batch, caller: library.Caller) -> None:
    session.submit("1")
    session.claim(5)
    session.claim()
    session.kill("0")
    session.waiting("1")
    session.commit("packer", 7)
    session.nothing()
    work: Work = session.claim("packer")
    submitted: Submitted = batch.add(claim("packer")).value
    words: int = batch.add(submit(1)).value
    Session(["keep 8"], seconds="5")
    connect(5)
    caller.submit("1")
    caller.commit(7)
    claimed: library.Work = caller.claim(1)
    print(work, submitted, words, claimed)
