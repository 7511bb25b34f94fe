"""Lines go in over one stream of bytes, and their answers come out over another."""
from __future__ import annotations

import contextlib
import os
import re
import select
import time

from covetrivet.faults import SessionFault


class Answers:
    """What has been read, by answers. That of a dump has as many lines more as its first one counts."""

    def __init__(self) -> None:
        self.rest = b""
        self.come: list[str] = []
        # of an answer of several lines those that have come, and how many are due
        self.part: list[str] = []
        self.due = 0

    def add(self, some: bytes) -> None:
        if not self.rest and some.find(b"\n") == len(some) - 1 >= 0:
            lines = [some[:-1]]
        else:
            *lines, self.rest = (self.rest + some).split(b"\n")
        for it in lines:
            line = it.decode("ascii")
            if not self.due and not line.startswith("dumped "):
                self.come.append(line)
            else:
                self.add_part(line)

    def add_part(self, line: str) -> None:
        """Takes a line of an answer that may have several."""
        self.part.append(line)
        if self.due:
            self.due -= 1
        else:
            counted = re.fullmatch(r"dumped (\d+)", line)
            self.due = int(counted[1]) if counted else 0
        if not self.due:
            self.come.append("\n".join(self.part))
            self.part = []

    def whole(self) -> int:
        return len(self.come)

    def take(self, many: int) -> list[str]:
        """Returns the first answers, in which a line end stands between the lines of one."""
        taken, self.come = self.come[:many], self.come[many:]
        return taken


class Wire:
    """Two descriptors, which don't block: one for what this side says, and one for what the other does."""

    def __init__(self, given: int, told: int, errors: int | None = None) -> None:
        self.input, self.output, self.errors = given, told, errors
        # (what ends a wait for the other side)
        stop, stopping = os.pipe()
        self.stop, self.stopping = open(stop, "rb", 0), open(stopping, "wb", 0)
        for it in (given, told):
            os.set_blocking(it, False)

    # ---- what this side says

    def put(self, some: bytes) -> bool:
        """Writes whole lines, which the system takes as a whole, or not at all now: whether it took them.
        What the other side was to be sent counts as taken where it has ended: what it answered is read.
        """
        try:
            os.write(self.input, some)
        except BlockingIOError:
            return False
        except OSError:
            return True
        return True

    def wait_to_put(self, milliseconds: float | None) -> None:
        """Waits until the other side takes something, for so long at most."""
        poll = select.poll()
        poll.register(self.input, select.POLLOUT)
        poll.poll(milliseconds)

    def end_input(self) -> bool:
        """Says no more. Whether the other side says something behind that."""
        raise NotImplementedError

    # ---- what the other side says

    def receive(self) -> bytes:
        """Waits for what the other side says, and returns some of it. Nothing where it says no more."""
        poll = select.poll()
        if self.stop.closed:
            return b""
        stop = self.stop.fileno()
        for it in (self.output, stop, self.errors):
            if it is not None and it >= 0:
                poll.register(it, select.POLLIN)
        while True:
            for descriptor, _events in poll.poll():
                if descriptor == stop:
                    return b""
                if descriptor == self.errors and not self.pass_on_errors():
                    poll.unregister(descriptor)
                if descriptor == self.output:
                    with contextlib.suppress(BlockingIOError):
                        return self.read_some()

    def read_some(self) -> bytes:
        return os.read(self.output, 65536)

    def pass_on_errors(self) -> bool:
        """Shows what the program has written on standard error. False where there is no more."""
        return False

    # ---- the end

    def ended_by(self) -> SessionFault:
        """Returns what ended the other side."""
        raise NotImplementedError

    def is_ended_well(self) -> bool:
        """Whether the other side has ended as it should."""
        return True

    def end(self) -> None:
        """Ends the other side, as far as it is this one's, and the wait for it."""
        with contextlib.suppress(OSError, ValueError):
            self.stopping.write(b".")

    def close_streams(self) -> None:
        """Closes the descriptors of this process alone."""
        self.stop.close()
        self.stopping.close()


def time_left(until: float | None, seconds: float | None) -> float | None:
    """Returns the milliseconds until then. TimeoutError where there are none left."""
    if until is None:
        return None
    left = until - time.monotonic()
    if left <= 0:
        raise TimeoutError(f"the program has not answered in {seconds} seconds")
    return left * 1000
