"""The words behind `covetrivet node`, `call` and `top`."""
from __future__ import annotations

import argparse
import re
from collections.abc import Sequence
from dataclasses import dataclass
from typing import NoReturn

WRONG_WORDS = 64


class Parser(argparse.ArgumentParser):
    """One that ends with the exit status of the other commands."""

    def error(self, message: str) -> NoReturn:
        self.exit(WRONG_WORDS, f"covetrivet: {message}; {self.prog} --help\n")


def seconds_of(word: str) -> float:
    if not re.fullmatch(r"\d{1,8}(\.\d+)?", word):
        raise ValueError(word)
    return float(word)


def many_of(word: str) -> int:
    if not re.fullmatch(r"[1-9]\d{0,8}", word):
        raise ValueError(word)
    return int(word)


def name_of(word: str) -> str:
    if not re.fullmatch(r"[!-~]{1,80}", word):
        raise ValueError(word)
    return word


def prefix_of(word: str) -> str:
    # (the keys of SHOP are SHOP/log/.. and SHOP/base/..: another log's are to be none of them)
    if not re.fullmatch(r"[\w./-]{0,199}\w", word) or {"log", "base"} & {*word.split("/")[1:]}:
        raise ValueError(word)
    return word


def members_of(word: str) -> list[str]:
    members = word.split(",")
    if not all(re.fullmatch(r"https?://([\w.-]+|\[[0-9a-f:]+\])(:\d{1,5})?", it) for it in members):
        raise ValueError(word)
    return members


# (argparse shows these names where a word is none)
name_of.__name__, prefix_of.__name__, members_of.__name__ = "name", "prefix", "list of http://HOST:PORT"
seconds_of.__name__, many_of.__name__ = "number of seconds", "number"


@dataclass(frozen=True)
class Joining:
    """What a node is to be, and which log it shares."""

    head: str
    name: str
    members: list[str] | None
    postgres: str | None
    prefix: str
    lease: int
    dump: int
    authority: str | None
    certificate: str | None
    key: str | None


def joining(words: Sequence[str]) -> tuple[Joining, list[str]]:
    """Returns what a node is to be, and the other words, which are its server's."""
    parser = Parser(
        "covetrivet node",
        description="One of several machines that have the same session.",
        epilog="All other options are as of a server, --socket among them: covetrivet serve --help.",
        allow_abbrev=False,
    )
    parser.add_argument("--name", required=True, type=name_of, help="this node's, as clients are told it")
    what = "the lines that a log without any begins with"
    parser.add_argument("--head", required=True, metavar="FILE", help=what)
    log = parser.add_mutually_exclusive_group(required=True)
    what = "etcd's members, http://HOST:PORT each, with commas between them"
    log.add_argument("--etcd", type=members_of, metavar="URL,..", help=what)
    log.add_argument("--postgres", metavar="CONNECTION", help="or PostgreSQL: as psql is told, in one word")
    what = "the name of the log, of which there is one for each session (covetrivet)"
    parser.add_argument("--prefix", type=prefix_of, default="covetrivet", help=what)
    what = "seconds after which another node may lead, where nothing is heard of this one (3)"
    parser.add_argument("--lease", type=many_of, default=3, metavar="SECONDS", help=what)
    what = "lines after which a dump takes the place of the log's records (20000)"
    parser.add_argument("--dump", type=many_of, default=20000, metavar="LINES", help=what)
    for name, what in ("ca", "whom etcd's certificates are of"), ("cert", "this node's"), ("key", "its key"):
        parser.add_argument(f"--{name}", metavar="FILE", help=f"of https://: {what}")
    if "--" in words:
        parser.error("a node's program is what COVETRIVET_PROGRAM names: nothing stands behind --")
    it, others = parser.parse_known_args(words)
    of = Joining(
        it.head, it.name, it.etcd, it.postgres, it.prefix, it.lease, it.dump, it.ca, it.cert, it.key
    )
    return of, others


@dataclass(frozen=True)
class Calling:
    """What is sent to a server; None is what the standard input has."""

    socket: str
    lines: list[str] | None


def calling(words: Sequence[str]) -> Calling:
    parser = Parser("covetrivet call", description="Sends lines to a server, and prints the answers.")
    parser.add_argument("--socket", required=True, metavar="PATH")
    parser.add_argument("lines", nargs="*", metavar="LINE", help="else those of the standard input")
    it = parser.parse_args(words)
    return Calling(it.socket, it.lines or None)


@dataclass(frozen=True)
class Watching:
    """What is shown of a server, and how often; None is once."""

    socket: str
    metrics: str | None
    seconds: float | None
    has_clients: bool


def watching(words: Sequence[str]) -> Watching:
    parser = Parser("covetrivet top", description="Shows what a server's session has, again and again.")
    parser.add_argument("--socket", required=True, metavar="PATH")
    parser.add_argument("--metrics", metavar="PATH", help="its other socket, for what the server counts")
    parser.add_argument("--clients", action="store_true", help="with --metrics, those that send most, too")
    parser.add_argument("--once", action="store_true", help="one time alone")
    parser.add_argument("--every", type=seconds_of, default=2, metavar="SECONDS", help="how often (2)")
    it = parser.parse_args(words)
    return Watching(it.socket, it.metrics, None if it.once else max(it.every, 0.1), it.clients)
