"""The program as a child process, over its three streams."""
from __future__ import annotations

import contextlib
import os
import subprocess
import sys
from collections.abc import Sequence

from covetrivet.faults import NoProgram, SessionEnded
from covetrivet.program import cant_start
from covetrivet.wire import Wire

KEPT_OF_ERRORS = 4096
SECONDS_TO_END, SECONDS_TO_CLEAN_UP = 10, 1


class Pipe(Wire):
    """The program's process, and its streams."""

    def __init__(self, program: Sequence[str]) -> None:
        try:
            # (in a group of processes of its own, so that Ctrl-C comes to this process, which then ends it)
            pipe = subprocess.PIPE
            self.process = subprocess.Popen(
                program, stdin=pipe, stdout=pipe, stderr=pipe, bufsize=0, start_new_session=True
            )
        except OSError as fault:
            raise NoProgram(cant_start(program[0], fault)) from fault
        self.said = b""
        self.ended: SessionEnded | None = None
        streams = self.process.stdin, self.process.stdout, self.process.stderr
        self.streams = [it for it in streams if it is not None]
        given, told, errors = (it.fileno() for it in self.streams)
        super().__init__(given, told, errors)
        os.set_blocking(errors, False)

    def ended_by(self) -> SessionEnded:
        """Waits until the program has ended, and returns how it did."""
        self.ended = self.wait_for_end(SECONDS_TO_END)
        return self.ended

    def is_ended_well(self) -> bool:
        return self.ended is not None and self.ended.status == 0

    def pass_on_errors(self) -> bool:
        """Shows what the program has written on standard error, and keeps the end of it. False where there is
        no more.
        """
        assert self.errors is not None
        try:
            some = os.read(self.errors, 65536)
        except (BlockingIOError, ValueError, OSError):
            return False
        if not some:
            return False
        self.said = (self.said + some)[-KEPT_OF_ERRORS:]
        # (where it can't be shown, as without a standard error of our own, it is kept all the same)
        with contextlib.suppress(OSError, ValueError, AttributeError):
            sys.stderr.write(some.decode("utf-8", "replace"))
            sys.stderr.flush()
        return True

    def wait_for_end(self, seconds: float) -> SessionEnded:
        """Waits until the program has ended, ends it where that takes longer, and returns how it did."""
        try:
            status = self.process.wait(seconds)
        except subprocess.TimeoutExpired:
            self.process.kill()
            status = self.process.wait()
        while self.pass_on_errors():
            pass
        return SessionEnded(status, self.said.decode("utf-8", "replace"))

    def end_input(self) -> bool:
        self.streams[0].close()
        return True

    def end(self) -> None:
        """Ends the program where it still runs. ./run cleans up when it is asked to."""
        if self.process.poll() is None:
            self.process.terminate()
            self.wait_for_end(SECONDS_TO_CLEAN_UP)
        super().end()

    def let_go(self) -> None:
        """Ends the program where it still runs, and closes the streams."""
        self.end()
        self.close_streams()

    def close_streams(self) -> None:
        for stream in self.streams:
            stream.close()
        super().close_streams()
