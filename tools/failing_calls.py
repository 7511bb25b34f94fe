"""Runs a program of Linux on x86-64 and refuses it what it asks for: an allocation, a thread, a byte to read or to write.

The program is the one that was built, and nothing is linked into it: this process traces it, as a debugger does. Its own entries
for malloc, realloc and free are turned to addresses where nothing lies, so that each such call stops it; calls of the system stop it
anyway. So it is counted too how many blocks of memory the program has and hasn't given back.
"""
import ctypes
import os
import signal
import struct
import subprocess
import tempfile

LIBC = ctypes.CDLL(None, use_errno=True)
LIBC.ptrace.argtypes = [ctypes.c_long, ctypes.c_long, ctypes.c_void_p, ctypes.c_void_p]
LIBC.ptrace.restype = ctypes.c_long
TRACEME, CONT, GETREGS, SETREGS, SYSCALL, SETOPTIONS = 0, 7, 12, 13, 24, 0x4200
# Stops at calls of the system are marked, threads are followed, and the program ends with this process.
OPTIONS = 0x1 | 0x8 | 0x100000
ANY_THREAD = 0x40000000
RAX, RDX, RDI, ORIG_RAX, RIP, RSP = 10, 12, 14, 15, 16, 19
READ, WRITE, CLONE, CLONE3 = 0, 1, 56, 435
EAGAIN, EINTR, EIO = 11, 4, 5
# The seconds that a run may take.
LIMIT = 60


def ptrace(what, thread, data=None):
    if LIBC.ptrace(what, thread, None, data) < 0:
        raise OSError(ctypes.get_errno(), f"this process may not trace a program: {os.strerror(ctypes.get_errno())}")


class Elf:
    """Where a program begins, and where it keeps the addresses of the functions that it takes from libraries."""

    def __init__(self, file):
        with open(file, "rb") as it:
            self.bytes = it.read()
        self.entry, headers = struct.unpack_from("<QQ", self.bytes, 24)
        size, count = struct.unpack_from("<HH", self.bytes, 54)
        parts = [struct.unpack_from("<IIQQQQ", self.bytes, headers + size * it) for it in range(count)]
        self.loads = [(address, offset, length) for kind, _, offset, address, _, length in parts if kind == 1]
        dynamic = next(offset for kind, _, offset, *_ in parts if kind == 2)
        tags = {}
        while not tags or 0 not in tags:
            tag, value = struct.unpack_from("<QQ", self.bytes, dynamic + 16 * len(tags))
            tags.setdefault(tag, value)
        self.slots = {}
        for table, length in ((7, 8), (23, 2)):
            for at in range(0, tags.get(length, 0), 24):
                slot, info, _ = struct.unpack_from("<QQq", self.bytes, self.place(tags[table]) + at)
                name, = struct.unpack_from("<I", self.bytes, self.place(tags[6]) + 24 * (info >> 32))
                begins = self.place(tags[5]) + name
                self.slots[self.bytes[begins : self.bytes.index(b"\0", begins)].decode()] = slot

    def place(self, address):
        return next(address - start + offset for start, offset, length in self.loads if start <= address < start + length)


class Run:
    """One run of a program, in which `refuse(kind, number)` says of each call what is to come of it: None for what it asks for.

    The kinds are alloc (refused by anything else), thread (likewise), read and write (an error's number as `-n`, or the most
    bytes that are moved). The calls of each kind are numbered from 1. The words are the program's arguments. `held` is how many blocks
    the program has kept to its end.
    """

    def __init__(self, program, elf, script, refuse, words=()):
        self.elf, self.refuse, self.counts, self.inside, self.held = elf, refuse, {}, {}, 0
        with tempfile.TemporaryFile() as given, tempfile.TemporaryFile() as out, tempfile.TemporaryFile() as said:
            given.write(script)
            given.seek(0)
            # All functions of libraries are to be found when the program begins.
            how = {"stdin": given, "stdout": out, "stderr": said, "env": {"LD_BIND_NOW": "1"}}
            child = subprocess.Popen([program, *words], preexec_fn=lambda: LIBC.ptrace(TRACEME, 0, None, None), **how)
            self.main = child.pid
            signal.signal(signal.SIGALRM, lambda *_: child.kill())
            signal.alarm(LIMIT)
            try:
                self.memory = os.open(f"/proc/{child.pid}/mem", os.O_RDWR)
                self.status = child.returncode = self.follow()
            finally:
                signal.alarm(0)
                if child.returncode is None:
                    child.kill()
                os.close(self.memory)
            out.seek(0)
            said.seek(0)
            self.out, self.said = out.read(), said.read().decode(errors="replace")

    def follow(self):
        os.waitpid(self.main, ANY_THREAD)
        ptrace(SETOPTIONS, self.main, OPTIONS)
        base = self.begin()
        self.hooks = {}
        for name in ("malloc", "realloc", "free"):
            if name in self.elf.slots:
                slot, trap = base + self.elf.slots[name], 16 * (len(self.hooks) + 1)
                self.hooks[trap] = (name, *struct.unpack("<Q", os.pread(self.memory, 8, slot)))
                os.pwrite(self.memory, struct.pack("<Q", trap), slot)
        ptrace(SYSCALL, self.main)
        while True:
            thread, status = os.waitpid(-1, ANY_THREAD)
            if os.WIFSTOPPED(status):
                ptrace(SYSCALL, thread, self.stopped(thread, os.WSTOPSIG(status), status >> 16))
            elif thread == self.main:
                return os.WEXITSTATUS(status) if os.WIFEXITED(status) else -os.WTERMSIG(status)

    def begin(self):
        """Lets the program come to its first instruction, when its libraries are there; returns where it lies."""
        with open(f"/proc/{self.main}/auxv", "rb") as it:
            told = it.read()
        pairs = [struct.unpack_from("<QQ", told, it) for it in range(0, len(told), 16)]
        entry = dict(pairs)[9]
        first = os.pread(self.memory, 1, entry)
        os.pwrite(self.memory, b"\xcc", entry)
        ptrace(CONT, self.main)
        os.waitpid(self.main, ANY_THREAD)
        os.pwrite(self.memory, first, entry)
        registers = self.registers(self.main)
        registers[RIP] = entry
        ptrace(SETREGS, self.main, registers)
        return entry - self.elf.entry

    def registers(self, thread):
        registers = (ctypes.c_ulonglong * 27)()
        ptrace(GETREGS, thread, registers)
        return registers

    def answer(self, kind):
        self.counts[kind] = self.counts.get(kind, 0) + 1
        return self.refuse(kind, self.counts[kind])

    def stopped(self, thread, by, event):
        """Has a stopped thread go on as it should; returns the signal that it is to get."""
        if by == signal.SIGTRAP | 0x80:
            self.at_system(thread)
            return None
        if event or by == signal.SIGSTOP:
            return None
        if by == signal.SIGSEGV:
            registers = self.registers(thread)
            if registers[RIP] in self.hooks:
                self.at_memory(thread, registers, *self.hooks[registers[RIP]])
                return None
        return by

    def at_memory(self, thread, registers, name, function):
        """Has a call for memory, or one that gives it back, come to its function, or to nothing."""
        if name == "free" or self.answer("alloc") is None:
            registers[RIP] = function
            # (one that is moved stays one)
            self.held += -(registers[RDI] != 0) if name == "free" else name == "malloc" or registers[RDI] == 0
        else:
            registers[RAX], top = 0, registers[RSP]
            registers[RIP], = struct.unpack("<Q", os.pread(self.memory, 8, top))
            registers[RSP] = top + 8
        ptrace(SETREGS, thread, registers)

    def at_system(self, thread):
        registers = self.registers(thread)
        if thread in self.inside:
            change = self.inside.pop(thread)
            if change:
                for register, value in change.items():
                    registers[register] = value & (2**64 - 1)
                ptrace(SETREGS, thread, registers)
            return
        self.inside[thread] = change = {}
        number, file = registers[ORIG_RAX], registers[RDI]
        if number in (CLONE, CLONE3):
            wanted = -EAGAIN if self.answer("thread") is not None else None
        elif (number, file) in ((READ, 0), (WRITE, 1)):
            wanted = self.answer("read" if number == READ else "write")
        else:
            return
        if wanted is None:
            return
        if wanted > 0:
            change[RDX], registers[RDX] = registers[RDX], min(wanted, registers[RDX])
        else:
            change[RAX], registers[ORIG_RAX] = wanted, 2**64 - 1
        ptrace(SETREGS, thread, registers)
