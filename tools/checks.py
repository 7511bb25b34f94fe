"""What rt ci is doing, and what each crate's checks take: read off the process table. And the copy of the repository in which it runs:
there it has no wrong bodies to try one at a time, and other commands of this checkout need not wait for it."""
import os
import re
import shutil
import subprocess
import time

TOP = os.path.dirname(os.path.dirname(os.path.realpath(__file__)))
TICK = os.sysconf("SC_CLK_TCK")


def clock(seconds):
    return f"{int(seconds) // 60}:{int(seconds) % 60:02d}"


def lines_of(*programs):
    """Returns what crates.txt says of the crates that these programs are made of, by the crate's name, those below first."""
    words = [f"{TOP}/tools/crates", "lines", *programs]
    said = subprocess.run(words, stdout=subprocess.PIPE, text=True, check=True).stdout
    return {it.partition(":")[0]: it for it in said.splitlines()}


def whole_lines(crates):
    """Returns the lines of crates.txt of these crates, with what they say of the kind of crate."""
    with open(f"{TOP}/crates.txt", encoding="utf-8") as it:
        return [line for line in it.read().splitlines() if re.split("[: ]", line)[0] in crates]


def copy_to(room, programs):
    """Copies what these programs are made of into this folder, without wrong bodies and without what earlier runs left, as a
    repository of its own, and returns the names of its crates."""
    lines = lines_of(*programs)
    for crate in lines:
        leave = shutil.ignore_patterns("out", "must-fail")
        shutil.copytree(f"{TOP}/crates/{crate}", f"{room}/crates/{crate}", ignore=leave)
    with open(f"{room}/crates.txt", "w", encoding="utf-8") as it:
        it.write("".join(f"{line}\n" for line in whole_lines(lines)))
    shutil.copy(f"{TOP}/HANDLES", room)
    # (rt takes the folder for the top of a repository)
    os.mkdir(f"{room}/.git")
    return [*lines]


class Times:
    """What the checks of each crate take: their processors' time, read off the process table while they run."""

    def __init__(self):
        # The processes whose children are looked at: rt ci, and what tries the wrong bodies.
        self.parents, self.spent, self.seen, self.running = set(), {}, {}, {}
        self.begun = time.time()

    def look(self):
        """Adds what the checks have used by now."""
        table = processes()
        children = {}
        for pid, (parent, _) in table.items():
            children.setdefault(parent, []).append(pid)
        self.running = {}
        for pid in [child for parent in list(self.parents) for child in children.get(parent, [])]:
            key = work_of(pid)
            if key is None:
                continue
            crate, kind = key
            self.running[crate, kind] = True
            self.spent.setdefault((crate, kind), {})[pid] = total(pid, table, children)
            first, _ = self.seen.get((crate, kind), (time.time(), 0))
            self.seen[crate, kind] = first, time.time()

    def processors(self, crate, kind):
        return sum(self.spent.get((crate, kind), {}).values()) / TICK

    def by_clock(self, crate, kind):
        first, last = self.seen.get((crate, kind), (0, 0))
        return last - first

    def number(self, crate, kind):
        return len(self.spent.get((crate, kind), {}))

    def doing(self):
        """Tells what is being done, and of wrong bodies in the how manieth check."""
        said = []
        for crate, kind in sorted(self.running):
            at = f", check {self.number(crate, kind)}" if kind == "edits" else ""
            said.append(f"{crate} {kind}{at}")
        return "; ".join(said)


def processes():
    """Returns, by its number, each process's parent and the time that it and its ended children have used."""
    table = {}
    for name in os.listdir("/proc"):
        if name.isdigit():
            try:
                with open(f"/proc/{name}/stat") as it:
                    fields = it.read().rpartition(")")[2].split()
            except OSError:
                continue
            table[int(name)] = int(fields[1]), sum(map(int, fields[11:15]))
    return table


def total(pid, table, children):
    return table[pid][1] + sum(total(it, table, children) for it in children.get(pid, []))


def work_of(pid):
    """Returns the crate that a process checks, and whether it checks the crate, its tests or a wrong body of it."""
    try:
        with open(f"/proc/{pid}/cmdline", "rb") as it:
            words = it.read().decode(errors="replace").split("\0")
        folder = os.readlink(f"/proc/{pid}/cwd")
    except OSError:
        return None
    if not words[0].endswith("/rattle") or "--crate-name" not in words:
        return None
    crate = words[words.index("--crate-name") + 1]
    if os.path.basename(folder).startswith("rt-edit-"):
        return crate, "edits"
    return crate, "tests" if "--test" in words else "check"
