"""The text of a journal: its first line, its lines, and the end of each batch (docs/decisions/32-journal.md)."""
import hashlib
import re

FIRST = b"# covetrivet journal 4\n"
COUNTED = re.compile(rb"# covetrivet: (\d+) lines for (\d+)\x02\n")
END = re.compile(rb"(# (\d+) (\d+) )([0-9a-f]{64})\x17\n")


class Wrong(Exception):
    """Something is not as it has to be."""


def own_lines(text):
    """The batches of a journal's text, each as a list of lines, once its first line and each end were held against it."""
    if not text.startswith(FIRST):
        raise Wrong(f"the text begins with {text[:40]!r}")
    batches, lines, at, begin = [], [], len(FIRST), len(FIRST)
    for line in re.findall(rb"[^\n]*\n|[^\n]+", text[len(FIRST):]):
        end = END.fullmatch(line)
        if end:
            if (int(end[2]), int(end[3])) != (at, begin) or end[4].decode() != hashlib.sha256(text[:at] + end[1]).hexdigest():
                raise Wrong(f"the end at byte {at} isn't that of the bytes before it")
            batches.append(lines)
            lines, begin = [], at + len(line)
        else:
            lines.append(line)
        at += len(line)
    if lines:
        raise Wrong(f"lines with no end were recovered: {lines[:2]}")
    return batches


def flat(batches):
    return [line for batch in batches for line in batch]


def attested(path):
    """The batches of a journal that its ends attest. What is behind the last end is a batch that a crash took the end of."""
    try:
        with open(path, "rb") as file:
            text = file.read().partition(b"\0")[0]
    except FileNotFoundError:
        return []
    last = text.rfind(b"\x17\n")
    return [] if last < 0 else own_lines(text[: last + 2])


def sent_in(path):
    """For how many lines of its client the dump at the front of a session's journal stands, and the client's lines behind it."""
    lines = flat(attested(path))
    count = COUNTED.fullmatch(lines[0]) if lines else None
    return (int(count[2]), lines[1 + int(count[1]):]) if count else (0, lines)


def sealed(text, batch):
    """The text with a batch behind it, and the end of that."""
    words = b"# %d %d " % (len(text + batch), len(text))
    return text + batch + words + hashlib.sha256(text + batch + words).hexdigest().encode() + b"\x17\n"


def made(batches):
    """The text of a journal that has these batches."""
    text = FIRST
    for lines in batches:
        text = sealed(text, b"".join(lines))
    return text
