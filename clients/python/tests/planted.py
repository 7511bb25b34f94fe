#!/usr/bin/env python3
"""Errors planted in a copy of the client: each must be found by the test that is named with it.

A test that fails, or that doesn't come to its end, has found it. First each of these tests must pass on the
copy as it is. Exit 0 where all is so; each error that isn't found is told in a line.
"""
from __future__ import annotations

import os
import shutil
import signal
import subprocess
import sys
import tempfile
from collections.abc import Callable, Iterable
from concurrent.futures import ThreadPoolExecutor
from dataclasses import dataclass
from functools import partial
from pathlib import Path
from queue import Queue

TESTS = Path(__file__).resolve().parent
# How long a test may take on the client as it is, and with an error in it, on a busy machine too.
SECONDS, SECONDS_WITH_AN_ERROR = 180, 40
# The files of tests, by their classes; of all others it is test_faults.py.
MODULES = {
    "Logs": "test_logs",
    "Calls": "test_calls",
    "Names": "test_calls",
    "Heads": "test_calls",
    "Dumps": "test_calls",
    "Converted": "test_convert",
    "Journals": "test_journals",
    "ServeCalls": "test_serve_calls",
    "ServeSessions": "test_serve_calls",
    "Clients": "test_clients",
    "ClientLogs": "test_clients",
    "ServeClients": "test_clients",
    "Replicas": "test_node",
    "Pieces": "test_node",
    "Members": "test_members",
    "Commands": "test_node",
    "Full": "test_node",
    "Processes": "test_node",
    "Lines": "test_lines",
    "NodeServers": "test_node_server",
    "ServeJournals": "test_serve_journals",
    "Works": "test_work",
    "Workers": "test_work",
    "Async": "test_aio",
    "Anywhere": "test_anywhere",
}


@dataclass(frozen=True)
class Error:
    """What stands in a file, what would stand there instead, and the test that must find it."""

    file: str
    old: str
    new: str
    test: str


ERRORS = [
    Error("conversation.py", 'b"%08x" % next(self.numbers)', 'b"%08x" % len(lines)', "Threads"),
    Error(
        "conversation.py", 'b"%08x" % next(self.numbers)', 'b"%08x" % len(lines)',
        "Exchanges.test_a_call_that_is_left",
    ),
    Error(
        "conversation.py", "            if waiting:\n", "            if True:\n",
        "Exchanges.test_a_call_that_is_left",
    ),
    Error("session.py", "if self._closed or self._said is None", "if self._said is None", "Closed"),
    Error(
        "session.py", "if os.getpid() != self._owner:\n            raise", "if False:\n            raise",
        "Closed",
    ),
    Error(
        "work.py", "if self.tries is None else self", "if True else self",
        "Works.test_only_this_try_is_ended",
    ),
    Error("work.py", "            self.give_up()\n", "            pass\n", "Works.test_a_block_that_is_left"),
    Error(
        "worker.py", "if is_known else self.left(session)", "",
        "Workers.test_what_an_earlier_life_has_left",
    ),
    Error("worker.py", "        work.give_up()\n", "", "Workers.test_an_act_that_fails"),
    Error("aio.py", "f\"{next(self._numbers):08x}\"", '"1"', "Async.test_a_call_that_is_cancelled"),
    Error(
        "conversation.py", "        self.is_greeted = True\n        return self.untagged[0]",
        "        return self.untagged[0]", "Journals.test_a_program_without_tags",
    ),
    Error(
        "journal.py", 'untagged(it.rstrip("\\n"))', 'it.rstrip("\\n")', "Journals.test_a_session_goes_on",
    ),
    Error(
        "commands.py", '"commit", name, *fenced(work), *drafts', '"commit", name, *drafts',
        "Works.test_only_this_try_is_ended",
    ),
    Error("commands.py", "if not isinstance(it, Draft):", "if False:", "Calls.test_numbers"),
    Error("client.py", "*words, epoch=self.epoch)", "*words)", "Clients.test_two_of_one_name"),
    Error(
        "client.py", "self.epoch, note, wait", "self.epoch, None, wait", "ServeSessions.test_lines_that_wait",
    ),
    Error("session.py", "self._seconds + wait if", "self._seconds if", "ServeSessions.test_lines_that_wait"),
    Error(
        "lines.py", "line.split()[0] not in COMMANDS", 'line.split()[0] in ("server", "worker", "limit")',
        "Heads.test_heads_with_a_typo",
    ),
    Error(
        "worker.py", "suppress(Disconnected, SessionEnded)", "suppress(SessionEnded)",
        "Workers.test_a_server_that_comes_again",
    ),
    Error(
        "remote.py", "in self._paths:", "in self._paths[:1]:",
        "ServeSessions.test_the_one_of_several_that_answers",
    ),
    Error("remote.py", "if self._token is not None:", "if False:", "ServeSessions.test_tokens"),
    Error(
        "batch.py", "        self.has_ended = True\n", "",
        "Exchanges.test_a_batch_that_is_interrupted",
    ),
    Error("session.py", "or self._is_gone or", "or self._closed or", "Anywhere.test_a_close"),
    Error("session.py", "not self._log.is_in_place()", "False", "Anywhere.test_logs"),
    Error("session.py", "self._wire.close_streams()", "pass", "Closed.test_a_forked_process"),
    Error("commands.py", '"[!-~]+"', '"(?s).*"', "Words.test_a_word_is_one_word"),
    Error("lines.py", '"[ -~]*"', '"(?s).*"', "Words.test_a_line_of_a_head_is_one_line"),
    Error("answers.py", "raise kind(self.command, name,", 'raise kind("", name,', "Told"),
    Error("log.py", "os.truncate(descriptor, len(whole) + 1)", "pass", "Logs.test_a_torn_last_line"),
    Error("log.py", "fcntl.LOCK_EX |", "fcntl.LOCK_SH |", "Logs.test_a_log_is_no_other_sessions"),
    Error("call.py", "or answered < self.asked", "", "ServeCalls.test_a_server_that_is_lost"),
    Error(
        "journal.py",
        "if all(it in (line, \"\") for it, line in zip(there, lines)):",
        "if False:",
        "Journals.test_a_beginning_that_was_cut_short",
    ),
    Error(
        "journal.py",
        "if is_only_head(there):",
        "if False:",
        "Journals.test_a_beginning_that_was_cut_short",
    ),
    Error(
        "journal.py",
        "with Session(lines, self._program, seconds=self._seconds):",
        "if True:",
        "Journals.test_a_head_that_is_refused_is_not_kept",
    ),
    Error("journal.py", "time.sleep(0.02)", "return", "Journals.test_two_sessions"),
    Error("session.py", "self.lines += len(lines)", "pass", "Journals.test_a_session_goes_on"),
    Error("client.py", "        self.sent = number", "", "Clients.test_a_client_goes_on"),
    Error("client.py", "self.received + 1", "self.received", "Clients.test_a_client_goes_on"),
    Error(
        "client.py",
        "number = self.sent + 1",
        "number = self.sent = self.sent + 1",
        "Clients.test_a_refused_send_is_not_counted",
    ),
    Error("client.py", "continue", "raise", "ServeClients.test_a_session_that_is_lost"),
    Error("replica.py", "if record.digest !=", "if None is", "Replicas.test_records_that_do_not_fit"),
    Error("replica.py", "if place != self.place", "if False", "Members.test_a_log_with_a_gap"),
    Error(
        "member.py",
        "if not self.log.append(place, record, token):",
        "if self.log.append(place, record, token) is None:",
        "Members.test_one_that_was_deposed_answers_nothing",
    ),
    Error(
        "member.py",
        "if reign == self.reign:",
        "if True:",
        "Members.test_one_that_was_deposed_answers_nothing",
    ),
    Error(
        "member.py",
        "while self.catch_up():",
        "while False:",
        "Members.test_what_came_in_the_last_moment_is_performed_first",
    ),
    Error("log.py", "if first != FIRST:", "if False:", "Logs.test_another_version"),
    Error("shared_log.py", "if version != VERSION:", "if False:", "Replicas.test_a_log_of_another_version"),
    Error("answers.py", "int(others[0]) if others else None", "None", "Calls.test_attempts"),
    Error(
        "answers.py", "raise why(self.command, name, element)", "raise why(self.command, name)",
        "Names.test_names_that_are_words_of_answers",
    ),
    Error("work.py", "operator.index(getattr(self, it.name))", "pass", "Calls.test_numbers"),
    Error("answers.py", "text.split(\":\")]", "text.split(\":\")[:2]]", "Calls.test_a_commit"),
    Error("commands.py", "return not heard.formed", "return True or heard.formed", "Calls.test_drains"),
    Error("lines.py", "restores = any(map(is_to_restore, head))", "restores = False", "Dumps.test_a_dump"),
    Error("session.py", "log.put_in_place()", "pass", "Logs.test_a_short_log"),
    Error("session.py", "return [*first, *others]", "return self._head", "Logs.test_workers_that_come"),
    Error("member.py", "replica.fed -= self.next_base[2]", "pass", "Members.test_the_log_is_made_short"),
    Error(
        "replica.py", '^refused line \\d+:", "refused line:', '^x", "x',
        "Replicas.test_one_that_goes_on_from_a_dump",
    ),
    Error("etcd.py", "packed[at : at", "packed[at + 1 : at", "Pieces"),
    Error(
        "member.py", " and signs < SIGNS_OF_RECORD", "",
        "Members.test_a_record_has_so_many_lines_and_signs",
    ),
    Error("etcd.py", '[put, *deletes]', "[put]", "Pieces"),
    Error("etcd.py", "if base.place > behind else None\n\n", "\n\n", "Pieces"),
    Error("convert.py", "how == 'full'", "False", "Converted.test_what_was_lost_and_parked"),
    Error("convert.py", "self.rollovers << 32 | element", "element", "Converted"),
    Error("convert.py", "it.attempts == self.dump.limit", "it.attempts > 7", "Converted"),
    Error("convert.py", "self.told(it.element) < self.told(it.root)", "False", "Converted"),
    Error("convert.py", "self.dump.ids.lost.get(name)", "None", "Converted.test_ids_that_last"),
    Error("convert.py", 'if found[1]:', 'if False:', "Converted.test_ids_that_last"),
    Error("convert.py", 'if name in self.hands:', 'if name in self.dump.lost:', "Converted.test_a_shop"),
    Error("convert.py", "self.free_hand(words[0])", "pass", "Converted"),
    Error("lines.py", "len(line) > LONGEST_LINE or not W", "not W", "Lines"),
    Error("lines.py", '"#[ -~]*| *"', '"#.*| *"', "Lines"),
    Error("options.py", ' or {"log", "base"} & {*word.split("/")[1:]}', "", "Commands"),
    Error("etcd.py", "for at, value in found if at]", "for at, value in found]", "Pieces"),
    Error("etcd.py", "if NO_SPACE in why:", "if False:", "Full"),
    Error("replica.py", "self.names[name] = line", "pass", "Replicas.test_one_that_goes_on_from_a_dump"),
    Error(
        "replica.py", "self.names.pop(name, None)", "pass", "Replicas.test_one_that_goes_on_from_a_dump"
    ),
    Error("member.py", "self.replica.units()", '"holds"', "Members.test_the_log_is_made_short"),
    Error(
        "member.py", "self.trouble is not type(why)", "not self.trouble",
        "NodeServers.test_a_log_that_is_full",
    ),
    Error("node_process.py", "asked.clear()", "pass", "Processes"),
    Error(
        "node_process.py", "self.reign = int(own[1])", "self.reign += 1",
        "NodeServers.test_one_that_leads_again",
    ),
    Error("node_process.py", "OF_SERVER.fullmatch", "OF_SERVER.match", "Processes"),
]


def passes(folder: str, test: str, seconds: float) -> bool:
    """Whether the test passes on the package in the folder, in so many seconds."""
    environment = {**os.environ, "PYTHONPATH": f"{folder}:{TESTS}", "PYTHONDONTWRITEBYTECODE": "1"}
    environment["COVETRIVET_TEST_SECONDS"] = "6"
    module = MODULES.get(test.partition(".")[0], "test_faults")
    command = [sys.executable, "-m", "unittest", "-q", f"{module}.{test}"]
    with subprocess.Popen(
        command,
        cwd=folder,
        env=environment,
        stdout=subprocess.DEVNULL,
        stderr=subprocess.DEVNULL,
        start_new_session=True,
    ) as run:
        try:
            return run.wait(seconds) == 0
        except subprocess.TimeoutExpired:
            # (with the servers that it has)
            os.killpg(run.pid, signal.SIGKILL)
            return False


def tell_failing(test: str, folder: str) -> str:
    """Tells of a test that doesn't pass on the copy of the client in this folder."""
    return "" if passes(folder, test, SECONDS) else f"{test} doesn't pass on the client as it is"


def tell_hidden(it: Error, folder: str) -> str:
    """Tells of an error that isn't found in the copy of the client in this folder."""
    file = Path(folder) / "covetrivet" / it.file
    text = file.read_text(encoding="utf-8")
    file.write_text(text.replace(it.old, it.new), encoding="utf-8")
    is_hidden = it.old not in text or passes(folder, it.test, SECONDS_WITH_AN_ERROR)
    file.write_text(text, encoding="utf-8")
    return f"{it.file}: {it.new!r} in place of {it.old!r} isn't found by {it.test}" if is_hidden else ""


class Copies:
    """Copies of the client, each of which one call has at a time."""

    def __init__(self, room: str, many: int) -> None:
        import covetrivet

        self.pool, self.folders = ThreadPoolExecutor(many), Queue[str]()
        for number in range(many):
            shutil.copytree(Path(covetrivet.__file__).parent, Path(room) / str(number) / "covetrivet")
            self.folders.put(f"{room}/{number}")

    def lent(self, call: Callable[[str], str]) -> str:
        folder = self.folders.get()
        try:
            return call(folder)
        finally:
            self.folders.put(folder)

    def told(self, calls: Iterable[Callable[[str], str]]) -> list[str]:
        """Returns what these calls tell, where they tell anything."""
        return [it for it in self.pool.map(self.lent, calls) if it]


def main() -> int:
    # (a test waits more than it works)
    with tempfile.TemporaryDirectory() as room:
        copies = Copies(room, os.cpu_count() or 2)
        wrong = copies.told(partial(tell_failing, it) for it in dict.fromkeys(it.test for it in ERRORS))
        # (a test that fails in any case would find nothing)
        wrong = wrong or copies.told(partial(tell_hidden, it) for it in ERRORS)
    print("\n".join(wrong))
    return 1 if wrong else 0


if __name__ == "__main__":
    sys.exit(main())
