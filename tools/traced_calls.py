"""What a program asked of its files and told, as its calls of the system say, and what a loss of power may have left of them.

The disk is the one of docs/DURABLE.md: what was synced is there; of what was written since any part may be, sector by sector; and a name
is its old or its new file until the folder is synced.
"""
import os
import re
import struct

from failing_calls import ORIG_RAX, RAX, RDI, RDX, Run

RSI, R10 = 13, 7
OPENAT, CLOSE, WRITE, PWRITE, FSYNC, FDATASYNC, FTRUNCATE, RENAME, READ = 257, 3, 1, 18, 74, 75, 77, 82, 0
CREATE, TRUNCATE = 0o100, 0o1000
SECTOR = 512


class Traced(Run):
    """One run, whose calls on files and its answers are kept: `calls` has a kind and what it is about. Each read of its input brings a
    piece."""

    def __init__(self, program, elf, pieces, words=()):
        self.calls, self.entered, self.pieces = [], {}, pieces
        super().__init__(program, elf, b"".join(pieces), self.piece, words)

    def piece(self, kind, number):
        return len(self.pieces[number - 1]) if kind == "read" and number <= len(self.pieces) else None

    def text(self, address):
        return os.pread(self.memory, 4096, address).split(b"\0")[0].decode()

    def at_system(self, thread):
        if thread not in self.inside:
            self.entered[thread] = self.asked(self.registers(thread))
            super().at_system(thread)
            return
        super().at_system(thread)
        asked = self.entered.pop(thread)
        result = struct.unpack("<q", struct.pack("<Q", self.registers(thread)[RAX]))[0]
        if asked and result >= 0:
            self.calls.append((*asked, result))

    def asked(self, registers):
        number, first, second, third = (registers[it] for it in (ORIG_RAX, RDI, RSI, RDX))
        if number == OPENAT:
            return "open", self.text(second), third
        if number in (PWRITE, WRITE):
            return "write", first, os.pread(self.memory, third, second), registers[R10] if number == PWRITE else None
        if number in (FSYNC, FDATASYNC):
            return "sync", first
        if number == FTRUNCATE:
            return "cut", first, second
        if number == RENAME:
            return "rename", self.text(first), self.text(second)
        return ("read", first) if number == READ else ("close", first) if number == CLOSE else None


def put(old, at, new):
    """A file's bytes with these written over them."""
    return old[:at].ljust(at, b"\0") + new + old[at + len(new) :]


class Disk:
    """The files of one folder, as they were when it began and as calls have changed them."""

    def __init__(self, folder, files):
        self.folder, self.open = folder, {}
        self.kept, self.since = dict(enumerate(files.values())), {it: [] for it in range(len(files))}
        self.names = {name: it for it, name in enumerate(files)}
        self.named = [dict(self.names)]

    def does(self, call):
        """Follows a call."""
        kind, what = call[0], call[1]
        if kind == "open" and what == self.folder:
            self.open[call[-1]] = None
        elif kind == "open" and os.path.dirname(what) == self.folder:
            self.opens(os.path.basename(what), *call[2:])
        elif kind == "close":
            self.open.pop(what, None)
        elif kind == "rename":
            old, new = map(os.path.basename, call[1:3])
            self.names[new] = self.names.pop(old)
            self.named.append(dict(self.names))
        elif what in self.open and kind == "sync":
            self.sync(self.open[what])
        elif what in self.open and kind == "write":
            self.since[self.open[what]].append((call[3], call[2]))
        elif what in self.open and kind == "cut":
            self.since[self.open[what]].append((call[2], None))

    def opens(self, name, flags, number):
        if name not in self.names and flags & CREATE:
            self.names[name] = len(self.kept)
            self.kept[len(self.kept)], self.since[len(self.since)] = b"", []
            self.named.append(dict(self.names))
        self.open[number] = self.names[name]
        if flags & TRUNCATE:
            self.since[self.names[name]].append((0, None))

    def sync(self, file):
        if file is None:
            self.named = [dict(self.names)]
        else:
            self.kept[file], self.since[file] = self.left(file, len(self.since[file])), []

    def left(self, file, many, torn=None):
        """A file with so many of the writes since its sync, or with the sectors of the last one that `torn` picks."""
        text = self.kept[file]
        for number, (at, new) in enumerate(self.since[file][:many]):
            if new is None:
                text = text[:at].ljust(at, b"\0")
            elif torn and number == many - 1:
                for begin in range(at - at % SECTOR, at + len(new), SECTOR):
                    if torn(begin):
                        low, high = max(begin, at), min(begin + SECTOR, at + len(new))
                        text = put(text, low, new[low - at : high - at])
            else:
                text = put(text, at, new)
        return text

    def after(self, chance, most):
        """Returns some of what a loss of power may leave now: the bytes of each name."""
        picks = [(names, file, which) for names in self.named for file in set(names.values()) for which in range(self.ways(file))]
        found = []
        for names, file, which in picks if len(picks) <= most else chance.sample(picks, most):
            ways = {it: which if it == file else chance.randrange(self.ways(it)) for it in set(names.values())}
            left = {it: self.text_of(it, way, chance) for it, way in ways.items()}
            found.append({name: left[it] for name, it in names.items()})
        return found

    def ways(self, file):
        """In how many ways a file may be left: as it was synced, and four for each write since."""
        return 1 + 4 * len(self.since[file])

    def text_of(self, file, which, chance):
        """What may be left of a file: the writes up to one, or of that one some sectors, the first ones or the last ones."""
        many, how = -(-which // 4), which % 4
        at, new = self.since[file][many - 1] if many else (0, None)
        end = at + len(new or b"")
        torn = (None, lambda begin: chance.random() < 0.5, lambda begin: begin >= at, lambda begin: begin + SECTOR < end)[how]
        return self.left(file, many, torn)


def answered(call):
    """What a call has told on standard output, or None."""
    return call[2] if call[0] == "write" and call[1] == 1 else None


def words_of(out):
    """How many lines a session with a journal says it recovered, and what else it told, or None where it told neither."""
    first, _, rest = out.partition(b"\n")
    told = re.fullmatch(rb"recovered (\d+)(?: cut \d+)?", first)
    return (int(told[1]), rest) if told else None
