"""A session's lines go out, each with a tag, and whoever waits for an answer knows it by that.

A thread reads the answers, and hands each to its own. So a call may be left half-way at any place, by a
signal's handler, Ctrl-C or a time limit: its answer is thrown away when it comes, and no other call takes it.
A call may also come out of another one, as from a signal's handler.
"""
from __future__ import annotations

import itertools
import re
import select
import threading
import time
from collections.abc import Callable, Sequence

from covetrivet.answers import NotUnderstood
from covetrivet.faults import SessionFault
from covetrivet.lines import NOTICE
from covetrivet.wire import Wire, time_left

# The number of the lines' protocol: before it there were no tags and fences.
PROTOCOL = 2
SECONDS_TO_LET_GO = 5


class Waiting:
    """Who waits for an answer, and what of it has come: that of a dump has as many lines more as its first
    one counts.
    """

    def __init__(self) -> None:
        self.lines: list[str] = []
        self.due = 1
        self.is_whole = False
        self.done = threading.Lock()
        self.done.acquire()

    def add(self, line: str) -> None:
        counted = None if self.lines else re.fullmatch(r"dumped (\d+)", line)
        self.due += int(counted[1]) if counted else 0
        self.lines.append(line)
        if len(self.lines) == self.due:
            self.is_whole = True
            self.end()

    def end(self) -> None:
        """Nothing more comes."""
        if self.done.locked():
            self.done.release()

    def wait(self, until: float | None, seconds: float | None) -> None:
        left = time_left(until, seconds)
        if not self.done.acquire(timeout=-1 if left is None else left / 1000):
            raise TimeoutError(f"the program has not answered in {seconds} seconds")


class Conversation:
    """What is said over a wire. Any thread may ask."""

    def __init__(self, wire: Wire) -> None:
        self.wire = wire
        self.waiting: dict[bytes, Waiting] = {}
        self.numbers = itertools.count()
        # lines without a tag: the first answer of a journal, and the final ones
        self.untagged: list[str] = []
        self.first = Waiting()
        self.is_ending = self.is_greeted = False
        self.fault: SessionFault | NotUnderstood | None = None
        self.reader = threading.Thread(target=self.listen, daemon=True)
        self.reader.start()

    # ---- what comes, in the thread that reads

    def listen(self) -> None:
        rest = b""
        try:
            while some := self.wire.receive():
                *lines, rest = (rest + some).split(b"\n")
                for line in lines:
                    self.hear(line.decode("latin-1"))
        finally:
            self.end_by(self.wire.ended_by())

    def hear(self, line: str) -> None:
        """Hands a line to who waits for it. Nobody does where the call was left."""
        if line.startswith("@"):
            tag, _, text = line[1:].partition(" ")
            waiting = self.waiting.get(tag.encode("latin-1"))
            if waiting:
                waiting.add(text)
            return
        self.untagged.append(line)
        self.first.end()
        if self.is_greeted and not self.is_ending and not line.startswith(NOTICE):
            self.end_by(NotUnderstood(f"the program has answered what it wasn't asked: {line!r}"))

    def end_by(self, fault: SessionFault | NotUnderstood) -> None:
        """Nothing more is answered, for this reason."""
        self.fault = self.fault or fault
        self.first.end()
        for it in list(self.waiting.values()):
            it.end()

    # ---- what is asked

    def ask(
        self, lines: Sequence[bytes], seconds: float | None = None, sent: Callable[[], None] | None = None
    ) -> list[str]:
        """Sends these lines, and returns the answer of each: an empty one where the line has none, and one
        of several lines with line ends in it. Once all are sent, `sent` is called.

        The fault that ended the other side, where it ends before. TimeoutError where an answer isn't there
        in so many seconds.
        """
        # (tags are of one length: so whether a line is too long depends on nothing else)
        until = None if seconds is None else time.monotonic() + seconds
        asked = {b"%08x" % next(self.numbers): Waiting() for _ in lines}
        self.waiting.update(asked)
        try:
            self.send([b"@%s %s\n" % it for it in zip(asked, lines)], until, seconds)
            if sent:
                sent()
            return [self.answer(it, until, seconds) for it in asked.values()]
        finally:
            for tag in asked:
                self.waiting.pop(tag, None)

    def answer(self, waiting: Waiting, until: float | None, seconds: float | None) -> str:
        if self.fault and not waiting.is_whole:
            raise self.again(self.fault)
        waiting.wait(until, seconds)
        if not waiting.is_whole and self.fault:
            raise self.again(self.fault)
        return "\n".join(waiting.lines)

    @staticmethod
    def again(fault: SessionFault | NotUnderstood) -> SessionFault | NotUnderstood:
        return type(fault)(*fault.args)

    def send(self, lines: Sequence[bytes], until: float | None, seconds: float | None) -> None:
        """Writes whole lines, as many at once as the system takes as a whole: no line is torn, wherever this
        is left.
        """
        for piece in pieces(lines):
            while not self.fault and not self.wire.put(piece):
                self.wire.wait_to_put(time_left(until, seconds))

    def greet(self, seconds: float | None = None) -> None:
        """NotUnderstood where the other side doesn't speak these lines."""
        said = len(self.untagged)
        waiting = Waiting()
        self.waiting[b"version"] = waiting
        self.first = waiting
        try:
            self.send([b"@version version\n"], None, seconds)
            answer = self.answer(waiting, None, None) if not self.untagged[said:] else ""
        finally:
            self.waiting.pop(b"version", None)
        self.is_greeted = True
        if self.untagged[said:] and self.untagged[-1].startswith(NOTICE):
            raise self.wire.ended_by()
        told = re.fullmatch(r"version \S+ lines (\d+)", answer)
        if not told or int(told[1]) < PROTOCOL:
            other = [*self.untagged[said:], answer][0]
            raise NotUnderstood(f"the program's lines aren't of version {PROTOCOL}: it answers {other!r}")

    def hear_first(self) -> str:
        """Returns the first line, which comes without a tag. The fault that ended the other side, where it
        ends before.
        """
        if not self.untagged:
            self.first.wait(None, None)
        if not self.untagged and self.fault:
            raise self.again(self.fault)
        self.is_greeted = True
        return self.untagged[0]

    # ---- the end

    def finish(self, seconds: float | None) -> list[str]:
        """Ends the input, and returns the lines that come behind it. The fault that ended the other side,
        where that is one.
        """
        said = len(self.untagged)
        self.is_ending = True
        if not self.wire.end_input():
            return []
        self.reader.join(seconds)
        if self.reader.is_alive():
            raise TimeoutError(f"the program has not ended in {seconds} seconds")
        if self.fault and not self.wire.is_ended_well():
            raise self.again(self.fault)
        return self.untagged[said:]

    def let_go(self) -> None:
        """Ends the other side, as far as it is this one's."""
        self.is_ending = True
        self.wire.end()
        if self.reader is not threading.current_thread():
            self.reader.join(SECONDS_TO_LET_GO)
        self.wire.close_streams()


def pieces(lines: Sequence[bytes]) -> list[bytes]:
    """Returns the lines in pieces of whole lines, of as many bytes as a write takes as a whole."""
    found = [b""]
    for it in lines:
        if found[-1] and len(found[-1]) + len(it) > select.PIPE_BUF:
            found.append(b"")
        found[-1] += it
    return found
