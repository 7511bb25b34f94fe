"""Where the program of sessions is, and which version this is."""
from __future__ import annotations

import importlib.metadata
import os
import re
from collections.abc import Sequence
from pathlib import Path

from covetrivet.faults import NoProgram

VARIABLE, SERVER = "COVETRIVET_PROGRAM", "COVETRIVET_SERVER"
NO_PROGRAM = 69
HOW = (
    f"Name it, by Session(head, program=..) or the environment variable {VARIABLE}: "
    "in a checkout of Covetrivet, ./prove makes crates/tp_live/out/tp_live."
)
HOW_TO_SERVE = (
    f"Name it by the environment variable {SERVER}: in a checkout of Covetrivet, server/build makes "
    "out/covetrivetd."
)


def checkout() -> Path | None:
    """Returns the checkout that this package is in, where it is not installed elsewhere."""
    for top in Path(__file__).resolve().parents[3:4]:
        if (top / "run").is_file() and (top / "crates" / "tp_live").is_dir():
            return top
    return None


def find(program: Sequence[str] | str | os.PathLike[str] | None = None) -> list[str]:
    """Returns the program, with its arguments: what is given, or what the environment names, or `./run
    --live` of the checkout.

    NoProgram where there is none of these.
    """
    if program:
        words = [program] if isinstance(program, (str, os.PathLike)) else program
        return [os.fspath(it) for it in words]
    named = os.environ.get(VARIABLE)
    if named:
        return [named]
    top = checkout()
    if top:
        return [str(top / "run"), "--live"]
    raise NoProgram(f"There is no program of sessions. {HOW}")


def find_server() -> list[str]:
    """Returns the server of sessions, with its first arguments: what the environment names, or `./run
    --server` of the checkout.

    NoProgram where there is none of these.
    """
    named = os.environ.get(SERVER)
    if named:
        return [named]
    top = checkout()
    if top:
        return [str(top / "run"), "--server"]
    raise NoProgram(f"There is no server of sessions. {HOW_TO_SERVE}")


def cant_start(program: str, fault: OSError) -> str:
    return f"The program {program!r} can't be started: {fault.strerror}. {HOW}"


def no_server(server: str, fault: OSError) -> str:
    return f"The server {server!r} can't be started: {fault.strerror}. {HOW_TO_SERVE}"


def version() -> str:
    """Returns the version: that of the checkout's CHANGELOG.md, or with which the package was installed; of a
    copy `unknown`.
    """
    top = checkout()
    if not top:
        try:
            return importlib.metadata.version("covetrivet")
        except importlib.metadata.PackageNotFoundError:
            return "unknown"
    found = re.search(r"(?m)^## (\d+\.\d+\.\d+)", (top / "CHANGELOG.md").read_text(encoding="utf-8"))
    if not found:
        raise LookupError(f"{top / 'CHANGELOG.md'} has no version")
    return found[1]
