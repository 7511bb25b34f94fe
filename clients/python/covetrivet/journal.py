"""A session whose program has each line that may change something in a journal before it is answered."""
from __future__ import annotations

import contextlib
import fcntl
import os
import re
import time
from collections.abc import Iterable, Iterator, Sequence
from itertools import islice, takewhile

from covetrivet.conversation import Conversation
from covetrivet.faults import JournalFault, SessionEnded
from covetrivet.lines import is_only_head, untagged
from covetrivet.pipe import Pipe
from covetrivet.program import find
from covetrivet.session import Path, Session
from covetrivet.wire import Wire

SECONDS_TO_LET_GO = 5
# A journal's own lines are comments: the first one, and those with this sign.
END_OF_BATCH = "\x17"


def journaled(program: Sequence[str], path: str) -> list[str]:
    """Returns the program with its words for a journal in this file."""
    return [*program, "--journal", path]


def wait_until_free(path: str) -> None:
    """Waits while a program has the journal, for some seconds at most. One whose client was killed may have
    lines to do still, and ends behind them.
    """
    until = time.monotonic() + SECONDS_TO_LET_GO
    with contextlib.suppress(OSError), open(f"{path}.lock", "rb+") as lock:
        while time.monotonic() < until:
            try:
                fcntl.flock(lock, fcntl.LOCK_EX | fcntl.LOCK_NB)
                return
            except BlockingIOError:
                time.sleep(0.02)


def recovered(said: Conversation, path: str) -> tuple[int, int]:
    """Waits until the program has recovered its journal, and returns how many lines that has, and how many
    bytes were cut off behind them.
    """
    try:
        answer = said.hear_first()
    except SessionEnded as ended:
        why = re.search("fault 4 Journal: (.*)", ended.said)
        if why:
            raise JournalFault(f"{path}: {why[1]}") from ended
        raise
    told = re.fullmatch(r"recovered (\d+)(?: cut (\d+))?", answer)
    if not told:
        raise JournalFault(f"the program keeps no journal: it answers {answer!r}")
    return int(told[1]), int(told[2] or 0)


def lines_in(path: str) -> Iterator[str]:
    """Yields the lines of the session that this journal has, without their tags. The dump at its front is
    among them.
    """
    with open(path, encoding="latin-1", newline="\n") as file:
        next(file, "")
        text = takewhile(lambda it: not it.startswith("\0"), file)
        yield from (untagged(it.rstrip("\n")) for it in text if END_OF_BATCH not in it)


class Journaled(Session):
    """A session with a journal."""

    def __init__(
        self,
        path: Path,
        head: Iterable[str] | None,
        program: Sequence[str] | Path | None = None,
        seconds: float | None = None,
    ) -> None:
        super().__init__([] if head is None else head, program, None, seconds)
        self._path = os.fspath(path)
        self._is_begun = head is None

    def _started(self) -> tuple[Wire, list[str]]:
        if self._is_begun and not os.path.exists(self._path):
            raise JournalFault(f"there is no journal {self._path}: begin it by Session.open(path, head)")
        lines = self._opened()
        wait_until_free(self._path)
        return Pipe(journaled(find(self._program), self._path)), lines

    def _begin(self, lines: list[str]) -> None:
        self.recovered, self.cut = recovered(self._conversation(), self._path)
        self.lines = self.recovered
        if self._is_begun and not self.recovered:
            raise JournalFault(f"{self._path} has no lines: begin it by Session.open(path, head)")
        if not self._is_begun:
            self._send_beginning(lines, self._known(lines))

    def _known(self, lines: list[str]) -> int:
        """Returns how many of the lines to begin with need not be sent. A journal may have some of them
        alone, where its beginning was cut short.
        """
        if not self.recovered:
            # What is refused would stay in the journal. So the lines are tried without one before.
            with Session(lines, self._program, seconds=self._seconds):
                return 0
        if self.recovered >= len(lines):
            return len(lines)
        there = list(islice(lines_in(self._path), self.recovered))
        # (an empty line stands for one that only asked)
        if all(it in (line, "") for it, line in zip(there, lines)):
            return self.recovered
        if is_only_head(there):
            raise JournalFault(f"{self._path} has the beginning of another head")
        return len(lines)
