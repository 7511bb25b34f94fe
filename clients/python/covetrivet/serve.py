"""`covetrivet serve`: the server of sessions, which is a program of its own, takes the place of this one."""
from __future__ import annotations

import os
import sys
from collections.abc import Sequence

from covetrivet import program
from covetrivet.faults import NoProgram


def serve(words: Sequence[str]) -> int:
    """Returns an exit status only where there is no server: 69."""
    try:
        server = program.find_server()
    except NoProgram as why:
        print(f"covetrivet: {why}", file=sys.stderr)
        return program.NO_PROGRAM
    try:
        session = ["--", *program.find()]
    except NoProgram:
        # (the server says so itself, where it needs one)
        session = []
    try:
        os.execvp(server[0], [*server, *words, *session])
    except OSError as fault:
        print(f"covetrivet: {program.no_server(server[0], fault)}", file=sys.stderr)
        return program.NO_PROGRAM
