"""What ends a session, or keeps one from beginning; and the want of the C library. None of these is a
refusal, which is an answer of the program's or the library's.
"""
from __future__ import annotations

import signal


class SessionFault(Exception):
    """A session can't begin, or can't go on."""


class NoProgram(SessionFault):
    """No program of sessions is found, or the one that is named can't be started. The text says what to do.
    """


class NoLibrary(Exception):
    """No shared object of the C library is found, or the one that is named can't be used. The text says what
    to do.
    """


class LogFault(SessionFault):
    """A log can't be begun or gone on from. The text says why."""


class JournalFault(SessionFault):
    """A journal can't be opened. The text says why."""


class SessionClosed(SessionFault):
    """The session has not begun, has been closed, or is another process's. Nothing was sent."""


class SessionBroken(SessionFault):
    """An earlier call was left half-way, so the log may have lines that weren't sent. Nothing was sent.
    Session.from_log goes on from it.
    """


class SessionEnded(SessionFault):
    """The program has ended. What was sent and not answered may have been done or not; all of it is gone with
    the program, unless the session has a journal or a log.

    `status` is its exit status, a negative one the number of the signal that ended it. `said` is the end of
    what it wrote on standard error.
    """

    def __init__(self, status: int, said: str) -> None:
        super().__init__(status, said)
        self.status = status
        self.said = said

    def __str__(self) -> str:
        number = -self.status
        how = f"by signal {number} ({name_of_signal(number)})" if number > 0 else f"with status {self.status}"
        return f"the program ended {how}; on standard error it wrote: {self.said.strip() or 'nothing'}"


class Unknown(SessionFault):
    """The server's session was lost before it answered this, and goes on over its journal. It has been
    performed, or not.
    """


class Disconnected(SessionFault, ConnectionError):
    """The server has let the connection go, or has ended. The text is what it said. What was sent and not
    answered may have been done or not.
    """


def name_of_signal(number: int) -> str:
    try:
        return signal.Signals(number).name
    except ValueError:
        return "unknown"
