"""`covetrivet node`: one of several machines that have the same session, by a log that they share.

The server of sessions takes the place of this process, and has the node as its program (node_process.py).
"""
from __future__ import annotations

import os
import ssl
import sys
from collections.abc import Sequence
from pathlib import Path

from covetrivet import program
from covetrivet.etcd import EtcdLog
from covetrivet.faults import NoProgram
from covetrivet.lines import checked
from covetrivet.options import Joining, joining
from covetrivet.postgres import PostgresLog
from covetrivet.shared_log import SharedLog

BAD_HEAD, NO_HEAD = 65, 66


def node(words: Sequence[str]) -> int:
    """Returns an exit status only where there is no node: what is wrong is told."""
    options, others = joining(words)
    try:
        head_of(options)
        opened(options)
        program.find()
        server = program.find_server()
    except ImportError:
        why = "--postgres needs Debian's python3-psycopg2, which this Python hasn't"
        return fail(program.NO_PROGRAM, why)
    except OSError as fault:
        return fail(NO_HEAD, f"can't read {fault.filename or options.head}: {fault.strerror}")
    except ValueError as fault:
        return fail(BAD_HEAD, f"{options.head} is no head: {fault}")
    except NoProgram as why:
        return fail(program.NO_PROGRAM, why)
    itself = [sys.executable, "-m", "covetrivet.node_process", *words]
    try:
        os.execvp(server[0], [*server, "--node", *others, "--", *itself])
    except OSError as fault:
        return fail(program.NO_PROGRAM, program.no_server(server[0], fault))


def fail(status: int, why: object) -> int:
    print(f"covetrivet: {why}", file=sys.stderr)
    return status


def head_of(options: Joining) -> list[str]:
    """Returns the lines that a new log begins with. The last one may lack its end."""
    *lines, last = Path(options.head).read_text(encoding="ascii").split("\n")
    return [checked(it) for it in ([*lines, last] if last else lines)]


def opened(options: Joining) -> SharedLog:
    """Returns the log. An OSError or a ValueError where its certificates can't be had, ImportError where its
    library can't.
    """
    if options.postgres:
        return PostgresLog(options.postgres, options.prefix, options.name, options.lease)
    trust = None
    if options.authority or options.certificate:
        trust = ssl.create_default_context(cafile=options.authority)
        if options.certificate:
            trust.load_cert_chain(options.certificate, options.key)
    return EtcdLog(options.members or (), options.prefix, options.name, options.lease, trust)
