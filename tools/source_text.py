"""tools/source_text.py: the sources of the crates as text: their lines of code, and what stands around a line or is called in it."""
import os
import re

TOP = os.path.dirname(os.path.dirname(os.path.realpath(__file__)))
# What a value of such a name is: a call of it is one of that type alone.
VALUES = {"manager": "Manager", "keeper": "Keeper", "old_keeper": "Keeper", "new_keeper": "Keeper", "pass": "Pass", "new": "Manager", "server": "Server"}


def read(path):
    with open(path, encoding="utf-8") as it:
        return it.read()


def all_sources():
    """Returns the files of all crates but those of tests, by their paths below crates/."""
    found = {}
    for at, _, files in os.walk(f"{TOP}/crates"):
        inside = os.path.relpath(at, f"{TOP}/crates")
        if re.match(r"(?!\w*_tests/)\w+/src\b", inside):
            found |= {f"{inside}/{it}": read(f"{at}/{it}") for it in sorted(files) if it.endswith(".rt")}
    return found


def code(text):
    """Yields the lines of code, without comments, contracts and what is for contracts alone."""
    depth = 0
    for line in text.split("\n"):
        line = line.strip()
        if depth or re.match(r"(requires|ensures|ghost|decreases)\b", line) or re.match(r"pub ghost\b", line):
            # A clause may go over several lines: it ends where its braces are closed.
            depth += line.count("{") - line.count("}")
            continue
        if line and not line.startswith("//"):
            yield line


def leads_to(body, own, of, known, order):
    """Yields the functions of the same crate and of those below that a body may call, each with its type. known: of each name the crates and
    types of its functions; order: the crates, lowest first."""
    for value, before, name in re.findall(r"(\w*)(::|\.|)\b(\w+)\(", body):
        there = [at for crate, at in known.get(name, ()) if order.index(crate) <= order.index(own)]
        if before == "." and value == "self" and of in there:
            yield of, name
        elif before == ".":
            wanted = VALUES.get(value)
            yield from ((at, name) for at in there if at and at != of and wanted in (None, at))
        else:
            at = value if before else None
            at = of if at == "Self" else at
            yield from [(it, name) for it in there if it == at] or [(it, name) for it in there if it is None]


def around(lines, at):
    """Yields the lines that this one stands in, from the inmost on: each is indented less. A `match`, `if` or `let` over several
    lines is one."""
    indent, end = len(lines[at]) - len(lines[at].lstrip()), None
    for k in range(at - 1, -1, -1):
        own = len(lines[k]) - len(lines[k].lstrip())
        if lines[k].strip() and (own < indent or end is not None and own == indent):
            if end is None and lines[k].strip() in (") {", "{"):
                indent, end = own, k
            else:
                begins = end is not None and re.match(r"\s*(match|if|let|while|for)\b", lines[k])
                yield "\n".join(lines[k : end + 1]) if begins else lines[k if end is None else end]
                indent, end = own, None
