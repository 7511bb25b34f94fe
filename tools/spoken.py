"""Programs of sessions that are spoken to over two pipes, line by line, and what is amiss with them."""
import array
import fcntl
import os
import select
import subprocess
import termios
import time

# How long an answer may take, in seconds. The unproved program is slow.
PATIENCE = 60
# How many bytes a program's memory may grow where it must not: what the system adds in pages.
MAY_GROW = 262_144


class Counts:
    passed = failed = 0


def note(what, is_well, said=""):
    if is_well:
        Counts.passed += 1
    else:
        Counts.failed += 1
        print(f"{what}: {said}")


class Amiss(Exception):
    """The program didn't do as it should."""


class Session:
    """A program that is spoken to over two pipes."""

    def __init__(self, program):
        # (a closed reader is told to the program as an error of its write, as to any child of a shell)
        pipes = {"stdin": subprocess.PIPE, "stdout": subprocess.PIPE, "stderr": subprocess.PIPE, "bufsize": 0}
        self.process = subprocess.Popen(program, **pipes)
        self.rest = b""

    def __enter__(self):
        return self

    def __exit__(self, *_):
        self.process.kill()
        self.process.wait()
        for it in (self.process.stdin, self.process.stdout, self.process.stderr):
            it.close()

    def send(self, some):
        self.process.stdin.write(some)

    def tell(self, lines):
        """Sends lines of a head, which have no answer."""
        for line in lines:
            self.send(line)
            if select.select([self.process.stdout], [], [], 0)[0]:
                raise Amiss(f"{line!r} is answered")

    def more(self):
        """Reads what there is, once there is something; nothing at the end."""
        if not select.select([self.process.stdout], [], [], PATIENCE)[0]:
            raise Amiss("no answer came")
        return os.read(self.process.stdout.fileno(), 65536)

    def line(self):
        """Returns the next line of an answer."""
        while b"\n" not in self.rest:
            some = self.more()
            if not some:
                raise Amiss(f"it ended behind {self.rest!r}")
            self.rest += some
        first, self.rest = self.rest.split(b"\n", 1)
        return first + b"\n"

    def ask(self, line, want):
        """Sends a line, and wants this answer, of a line or more, before it goes on."""
        self.send(line)
        for wanted in want.splitlines(keepends=True):
            got = self.line()
            if got != wanted:
                raise Amiss(f"{line!r} is answered {got!r}, and not {wanted!r}")
        if want and self.rest:
            raise Amiss(f"behind the answer to {line!r} is {self.rest!r}")

    def end(self):
        """Ends the input. Returns what is written then, standard error, and the exit status."""
        self.process.stdin.close()
        while some := self.more():
            self.rest += some
        return self.rest, self.process.stderr.read(), self.process.wait(PATIENCE)

    def until_read(self):
        """Waits until the program has read all that was sent."""
        left, patient_until = array.array("i", [1]), time.time() + PATIENCE
        while left[0]:
            if time.time() > patient_until or self.process.poll() is not None:
                raise Amiss("it reads no more")
            fcntl.ioctl(self.process.stdin, termios.FIONREAD, left)


def is_well_ended(ended, want):
    out, err, status = ended
    of_run = all(it.startswith(b"run: ") for it in err.splitlines())
    if out != want or not of_run or status != 0:
        raise Amiss(f"the end is {out!r}, and not {want!r}; standard error {err!r}, exit status {status}")


def resident(process):
    """Returns how many bytes of memory a process has."""
    with open(f"/proc/{process.pid}/statm", encoding="ascii") as given:
        return int(given.read().split()[1]) * os.sysconf("SC_PAGE_SIZE")
