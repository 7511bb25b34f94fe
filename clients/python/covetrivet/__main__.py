"""The command `covetrivet`, or `python3 -m covetrivet`: runs the program of sessions, tells what its lines
are, shares a session among processes, and converts dumps.
"""
from __future__ import annotations

import os
import sys
from collections.abc import Sequence

from covetrivet import NoProgram, program

HELP = """\
covetrivet [SESSION]    answers a session line by line, of a file or its input
covetrivet serve, node, call, top   one session for many processes (--help)
covetrivet convert [DUMP]   a dump of 0.22.1 or before, as the head of a session
covetrivet --help, --version    COVETRIVET_PROGRAM names the program of sessions
Head     limit N  max N  keep N   attempts, 1 to 7; most alive; ended ones kept
         worker NAME STAGE  register NAME   a name to 32 signs; 1 to 999 but 15
         server NAME eager|lazy STAGE REGISTERS add|take|pass OUT ..
         start NAME REGISTER N   OUT is STAGE:W0:W1[:W2[:W3]]; 15 replies
Client   submit STAGE W0 W1 [W2 [W3]]                   submitted ID
         kill ID  cancel ROOT  requeue ID  release ID   killed ID aborted N ..
         reply ROOT  collect ROOT  family ROOT          replies ROOT ID:W0:W1 ..
         read ID  errors  list STAGE [FROM]  depth  count  holds  account
         send NAME N STAGE W0 W1 ..  receive NAME N [ROOT]   N counts from 1
         register NAME  last NAME  forget NAME          last also of a worker
Worker   claim NAME         NAME work ID unit U attempt N root R body W0:..:W3
         next NAME, take NAME ID    the same, in turn; of this element
         commit NAME OUT .. NAME done ID unit U outputs FIRST COUNT (4 OUT)
         abort NAME         NAME aborted ID; worker NAME STAGE  leave NAME
Server   turn NAME   claim, next, take, prepare, commit, abort, drop NAME
         balance NAME REGISTER    sum REGISTER    drain    drain next
All      dump, restore      dumped N, and N lines: the head of the same session
Refused  refused [line L:] K WHY [U]; NAME idle, busy, none, lost, ended or
         refused ID WHY. One answer each, in order. More: docs/LIVE.md
"""


WORDS = ("serve", "node", "call", "top", "convert")


def run_word(command: str, words: Sequence[str]) -> int:
    """Runs a command that is more than the program of sessions."""
    if command == "serve":
        from covetrivet.serve import serve as run
    elif command == "node":
        from covetrivet.node import node as run
    elif command == "call":
        from covetrivet.call import call as run
    elif command == "convert":
        from covetrivet.convert import convert as run
    else:
        from covetrivet.top import top as run
    return run(words)


def fail(status: int, why: object) -> int:
    print(f"covetrivet: {why}", file=sys.stderr)
    return status


def main(words: Sequence[str] | None = None) -> int:
    """Exit status: that of the program; 64, 66 or 69 where none is run: wrong words, no such file, no
    program.
    """
    given = list(sys.argv[1:] if words is None else words)
    if given[:1] and given[0] in WORDS:
        return run_word(given[0], given[1:])
    if given in (["--help"], ["-h"]):
        print(HELP, end="")
        return 0
    if given == ["--version"]:
        print(f"covetrivet {program.version()}")
        return 0
    if len(given) > 1 or given[:1] and given[0].startswith("-"):
        return fail(64, "one file at most; covetrivet --help")
    try:
        if given:
            os.dup2(os.open(given[0], os.O_RDONLY), 0)
    except OSError as fault:
        return fail(66, f"can't read {given[0]}: {fault.strerror}")
    try:
        found = program.find()
    except NoProgram as why:
        return fail(69, why)
    try:
        os.execvp(found[0], found)
    except OSError as fault:
        return fail(69, program.cant_start(found[0], fault))


if __name__ == "__main__":
    sys.exit(main())
