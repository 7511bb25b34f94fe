"""Lines of a session, as far as a client must know them: which belong to the head, and which have an answer.
"""
from __future__ import annotations

import re
from collections.abc import Iterator, Sequence
from itertools import takewhile

# What a dump says of what there is: behind any of these `restore` is the first command.
TO_RESTORE = (
    "numbers", "element", "over", "settled", "hand", "from", "prepared", "dropped", "ended", "client",
)  # fmt: skip
# What changes nothing. A log needs none of it.
QUIET = (
    "read", "reply", "family", "errors", "count", "depth", "list", "holds", "balance", "sum", "account",
    "last", "dump",
)  # fmt: skip
# What ends a head. Any other line is sent as one of the head, and so refused where it is faulty.
COMMANDS = (
    "submit", "kill", "cancel", "requeue", "release", "collect", "restore", "claim", "next", "turn",
    "prepare", "abort", "drop", "drain", "take", "commit", "leave", "send", "receive", "forget", *QUIET,
)  # fmt: skip
LONGEST_LINE = 1023
LINES_AT_ONCE = 1000
# What a server answers to a line that its session was lost with: it has been performed, or not.
UNKNOWN = "unknown"
# What a server says besides answers begins so. No answer does: a name has no colon.
NOTICE = "covetrivet: "
MAYBE_WITHOUT, WITHOUT_ANSWER = (b"", b"#", b" "), re.compile(b"#[ -~]*| *")


def checked(line: str) -> str:
    """Returns the line. ValueError where it has a byte that no line has, as a line end, which would make two
    of it.
    """
    if not re.fullmatch("[ -~]*", line):
        raise ValueError(f"this can't be a line of a session: {line!r}")
    return line


def is_empty(line: str) -> bool:
    return line.startswith("#") or not line.strip()


def is_asked(line: bytes) -> bool:
    """Whether any bytes between two line ends have an answer, behind the head. A comment has one that is too
    long, or has a byte that no line has: it is refused.
    """
    return line[:1] not in MAYBE_WITHOUT or len(line) > LONGEST_LINE or not WITHOUT_ANSWER.fullmatch(line)


def untagged(line: str) -> str:
    """Returns a line without its tag."""
    return re.sub(r"^@[0-9A-Za-z._-]{1,20}(?: |$)", "", line)


def is_for_logs(line: str) -> bool:
    """Whether a log has this line."""
    return not is_empty(line) and line.split()[0] not in QUIET


def is_of_head(line: str) -> bool:
    return is_empty(line) or line.split()[0] not in COMMANDS


def is_to_restore(line: str) -> bool:
    return not is_empty(line) and line.split()[0] in TO_RESTORE


def is_only_head(lines: Sequence[str]) -> bool:
    """Whether none of the lines must be a command."""
    return all(map(is_of_head, lines))


def beginning(lines: Sequence[str]) -> tuple[list[str], list[str]]:
    """Returns the lines up to the first command, and the others. That command is `restore` where the lines
    restore, else `count`. They need not have it.
    """
    head = list(takewhile(is_of_head, lines))
    others = list(lines[len(head) :])
    restores = any(map(is_to_restore, head))
    if others and (restores or others[0].split() in (["count"], ["restore"])):
        return [*head, others[0]], others[1:]
    return [*head, "restore" if restores else "count"], others


def pieces_of(lines: Sequence[str]) -> Iterator[Sequence[str]]:
    """Yields the lines in pieces that are sent at once."""
    for at in range(0, len(lines), LINES_AT_ONCE):
        yield lines[at : at + LINES_AT_ONCE]
