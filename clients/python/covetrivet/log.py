"""A log: a file with each line that a session is sent, from which a later session goes on. It is a session's
file too.

What is in it survives the end of the client and of the program. It isn't synced, so it doesn't survive that
of the machine.
"""
from __future__ import annotations

import contextlib
import fcntl
import os
from collections.abc import Iterable

from covetrivet.faults import LogFault

# The first line. Its number changes with each change by which the same lines may lead elsewhere.
FIRST = "# covetrivet log 2"


class Log:
    """An open log. One at a time has the file open: it is locked (`flock`)."""

    descriptor = -1

    def __init__(self, path: str, descriptor: int) -> None:
        self.path = path
        self.descriptor = descriptor

    @classmethod
    def begun(cls, path: str, lines: Iterable[str]) -> Log:
        """Begins a log with these lines. The file is there with all of them, or isn't. LogFault where a file
        of this name is there.
        """
        log = cls.beside(path, lines)
        try:
            os.link(f"{path}.new", path)
        except OSError as fault:
            log.discard()
            cls.refuse_what_is_there(path)
            raise LogFault(f"{path} can't be begun as a log: {fault.strerror}") from fault
        os.unlink(f"{path}.new")
        return log

    @staticmethod
    def refuse_what_is_there(path: str) -> None:
        if os.path.exists(path):
            raise LogFault(f"{path} is there already: Session.from_log({path!r}) goes on from it")

    @classmethod
    def of(cls, path: str) -> tuple[Log, list[str]]:
        """Opens a log, and returns it and its lines. A last line that is torn was never sent, and is cut off.
        """
        try:
            descriptor = os.open(path, os.O_RDWR | os.O_APPEND)
        except OSError as fault:
            raise LogFault(f"{path} can't be opened as a log: {fault.strerror}") from fault
        log = cls(path, descriptor)
        try:
            log.lock()
            if os.fstat(descriptor).st_ino != os.stat(path).st_ino:
                raise LogFault(f"{path} has just been shortened by another session")
            with open(descriptor, "rb", closefd=False) as file:
                text = file.read()
            whole = text.rpartition(b"\n")[0]
            if not whole:
                raise LogFault(f"{path} has no lines to go on from: begin it by Session(head, log={path!r})")
            first, *lines = whole.decode("ascii").split("\n")
            if first != FIRST:
                raise LogFault(f"{path} is no log of this version: its first line isn't {FIRST!r}")
            if len(whole) + 1 < len(text):
                os.truncate(descriptor, len(whole) + 1)
            return log, lines
        except UnicodeDecodeError as fault:
            log.close()
            raise LogFault(f"{path} is no log: {fault}") from fault
        except BaseException:
            log.close()
            raise

    @classmethod
    def beside(cls, path: str, lines: Iterable[str]) -> Log:
        """Returns a log of these lines, in a file beside the one of this name. LogFault where it can't be
        written.
        """
        try:
            log = cls(path, os.open(f"{path}.new", os.O_RDWR | os.O_APPEND | os.O_CREAT, 0o666))
        except OSError as fault:
            raise LogFault(f"{path}.new can't be made: {fault.strerror}") from fault
        try:
            log.lock()
            os.truncate(log.descriptor, 0)
            log.write([FIRST, *lines])
            os.fsync(log.descriptor)
        except OSError as fault:
            log.close()
            raise LogFault(f"{path}.new can't be written: {fault.strerror}") from fault
        except BaseException:
            log.close()
            raise
        return log

    def lock(self) -> None:
        try:
            fcntl.flock(self.descriptor, fcntl.LOCK_EX | fcntl.LOCK_NB)
        except BlockingIOError as fault:
            raise LogFault(f"{self.path} is the log of another session that is open") from fault

    def put_in_place(self) -> None:
        """Moves the file into the place of the log that was there."""
        os.replace(f"{self.path}.new", self.path)

    def is_in_place(self) -> bool:
        """Whether it is open, and the log that has its name."""
        with contextlib.suppress(OSError):
            return os.path.samestat(os.fstat(self.descriptor), os.stat(self.path))
        return False

    def discard(self) -> None:
        """Takes away a file that wasn't put in place."""
        os.unlink(f"{self.path}.new")
        self.close()

    def write(self, lines: Iterable[str]) -> None:
        """Writes these lines behind the others."""
        left = memoryview(b"".join(it.encode("ascii") + b"\n" for it in lines))
        while left:
            left = left[os.write(self.descriptor, left) :]

    def close(self) -> None:
        if self.descriptor >= 0:
            descriptor, self.descriptor = self.descriptor, -1
            os.close(descriptor)

    # (one that was left half-way keeps no lock)
    __del__ = close
