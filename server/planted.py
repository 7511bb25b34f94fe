#!/usr/bin/env python3
"""server/planted.py [NUMBER..]: errors planted in copies of the server: each must be found by the test that is named with it.

A test of clients/python/tests that fails, or doesn't come to its end, has found it. First each of these tests must pass on the
server as it is. Exit 0 where all is so; each error that isn't found is told in a line. With numbers these errors alone are tried.
"""
from __future__ import annotations

import os
import shutil
import signal
import subprocess
import sys
import tempfile
from concurrent.futures import ThreadPoolExecutor
from dataclasses import dataclass
from pathlib import Path

TOP = Path(__file__).resolve().parents[1]
TESTS = TOP / "clients" / "python" / "tests"
# How long a test may take on the server as it is, and with an error in it, on a busy machine too; and an answer.
SECONDS, SECONDS_WITH_AN_ERROR, SECONDS_FOR_AN_ANSWER = 240, 60, 6


@dataclass(frozen=True)
class Error:
    """What stands in a file, what would stand there instead, and the test that must find it."""

    file: str
    old: str
    new: str
    test: str


ERRORS = [
    # whose an answer is
    Error("routing.rs", "self.asked.pop_front() else", "self.asked.pop_back() else", "test_serve.ServeAnswers.test_two_clients_that_interleave"),
    Error("routing.rs", "self.part = Some((asked, left - 1));", "self.part = Some((asked, left));", "test_serve.ServeAnswers.test_a_dump_is_one_answer"),
    Error("routing.rs", "self.part.is_none() && self.asked", "self.asked", "test_serve_rights.ServeRights.test_a_denied_line_comes_behind_a_dump"),
    Error("answers.rs", "Heard::Nobody => return false", "Heard::Nobody => ()", "test_serve_ends.ServeEnds.test_the_session_ends_by_a_fault"),
    Error("answers.rs", "self.write(to, asked.tag, answer);\n", "self.write(to, Tag::NONE, answer);\n", "test_serve_waits.ServeTags.test_tags"),
    Error("connection.rs", "self.at = 0;\n        let mut some", "let mut some", "test_serve.ServeAnswers.test_lines_that_come_in_pieces"),
    Error("turns.rs", "at += length + 1;", "at += if many == 2 { 0 } else { length + 1 };", "test_serve.ServeAnswers.test_two_clients_that_interleave"),
    Error("turns.rs", "self.given += many", "self.given += many / 2", "test_serve.ServeAnswers.test_two_clients_that_interleave"),
    # what a client may take
    Error("lines.rs", "Some(b'#') => line.len() > LONGEST_LINE ||", "Some(b'#') =>", "test_serve.ServeBounds.test_a_line_that_is_too_long"),
    Error("lines.rs", "|| !line.iter().all(|it| (b' '..=b'~').contains(it))", "", "test_serve.ServeAnswers.test_any_bytes"),
    Error("connection.rs", "self.input.truncate(self.at + LONGEST_LINE + 1);", "", "test_serve.ServeBounds.test_a_line_that_is_too_long"),
    Error("lines.rs", "line.len().min(LONGEST_LINE + 1)", "line.len().min(LONGEST_LINE)", "test_serve.ServeBounds.test_a_line_that_is_too_long"),
    Error("connection.rs", "self.in_flight < limits.lines", "self.in_flight < 999", "test_serve.ServeBounds.test_lines_that_are_not_answered"),
    Error("connection.rs", "&& !self.is_behind()", "", "test_serve.ServeBounds.test_a_client_that_reads_slowly_stays"),
    Error("connection.rs", "&& self.written == self.was_written", "", "test_serve.ServeBounds.test_a_client_that_reads_slowly_stays"),
    Error("clients.rs", "self.let_go(id, LetGo::Slow);", "", "test_serve.ServeBounds.test_a_client_that_reads_nothing_is_let_go"),
    Error("clients.rs", "return self.let_go(to, LetGo::Unread)", "return", "test_serve.ServeBounds.test_a_slow_client_is_let_go"),
    Error("clients.rs", "many >= self.options.limits.connections", "many > 2000", "test_serve.ServeBounds.test_too_many_connections"),
    Error("turns.rs", "self.routing.of_clients() < self.pace.window()", "true", "test_serve.ServeBounds.test_lines_are_shared"),
    Error("clients.rs", "is_torn.then_some(torn)", "None", "test_serve.ServeAnswers.test_a_torn_last_line_is_not_performed"),
    Error("clients.rs", "Reading::Over if it.in_flight == 0", "Reading::Over", "test_serve.ServeAnswers.test_one_that_says_no_more_before_it_is_answered"),
    # turns: one that has lines stands at the front again, or has all of them taken, empty ones uncounted
    Error("clients.rs", "self.ready.push_back(id);", "self.ready.push_front(id);", "test_serve.ServeBounds.test_clients_have_turns"),
    Error("turns.rs", "const LINES_OF_A_TURN: usize = 16;", "const LINES_OF_A_TURN: usize = 640;", "test_serve.ServeBounds.test_clients_have_turns"),
    # waits
    Error("parking.rs", "        self.wake_for(is_for);\n        }\n", "        }\n", "test_serve_waits.ServeWaits.test_several_that_a_drain_makes"),
    Error("parking.rs", "it.state = State::Tried(because);", "", "test_serve_waits.ServeWaits.test_an_arrival_takes_two_tries_at_most"),
    Error("parking.rs", "self.timers.put(until, Timer::Wait(id));", "", "test_serve_waits.ServeWaits.test_its_time_is_over"),
    Error("parking.rs", "it.is_parked = true;", "", "test_serve_waits.ServeWaits.test_later_lines_come_behind_it"),
    Error("parking.rs", "if !is_behind {", "if true {", "test_serve_waits.ServeWaits.test_who_comes_later_takes_nothing_of_who_waits"),
    Error("parking.rs", "them.push(For::Replies);", "", "test_serve_waits.ServeWaits.test_replies"),
    Error("waits.rs", "{ 1 } else { usize::MAX }", "{ 1 } else { 1 }", "test_serve_waits.ServeWaits.test_replies"),
    Error("parking.rs", "if let Some(it) = self.waits.take(*id) {", "if let Some(it) = self.waits.get(*id) {", "test_serve_waits.ServeWaits.test_who_is_gone_takes_nothing"),
    Error("answers.rs", "if !asked.arrivals.is_none() && !is_refused {", "if !asked.arrivals.is_none() && !is_refused && !asked.arrivals.is_anywhere {", "test_serve_waits.ServeWakes.test_a_release"),
    Error("arrivals.rs", "Abort | Leave | Drop | Prepare =>", "Leave | Drop | Prepare =>", "test_serve_waits.ServeWakes.test_an_abort"),
    Error("arrivals.rs", "filter(|_| !units.is_taken(name))", "filter(|_| true)", "test_serve_waits.ServeWakes.test_an_abort_of_what_was_taken"),
    Error("life.rs", "self.wake_all();", "", "test_serve_waits.ServeWaitsJournals.test_what_came_before_the_session_was_killed"),
    Error("answers.rs", "self.waits.moved(asked.name, stage)", "self.waits.of_name(asked.name)", "test_serve_waits.ServeWaits.test_workers_that_come_and_go"),
    Error("clients.rs", "let waited = self.forget_waits_of(id);", "let waited = 0;", "test_serve_waits.ServeWaits.test_who_is_gone_takes_nothing"),
    Error("clients.rs", "self.poll.remove(it.fd());", "", "test_serve.ServeBounds.test_one_that_is_gone_takes_no_processor"),
    Error("clients.rs", "Reading::Open | Reading::Paused if it.is_hung_up =>", "Reading::Open if it.is_hung_up =>", "test_serve.ServeBounds.test_one_that_is_gone_takes_no_processor"),
    # rights
    Error("rights.rs", "&& self.stages.fit(verb, line)", "", "test_serve_rights.ServeRights.test_rights_of_a_user"),
    Error("rights.rs", "words.skip(2).filter", "words.skip(3).filter", "test_serve_rights.ServeRights.test_rights_of_a_user"),
    Error("turns.rs", "if it.who == Client::Stranger {\n            return false;", "if it.who == Client::Stranger {\n            return true;", "test_serve_rights.ServeRights.test_tokens_over_tcp"),
    Error("turns.rs", "return self.dismiss_once_answered(from);", "return;", "test_serve_rights.ServeRights.test_tokens_over_tcp"),
    Error("rights.rs", "it.len() == secret.len() &&", "", "test_serve_rights.ServeRights.test_tokens_over_tcp"),
    Error("turns.rs", "return self.answer_itself(Asked { by: By::Denial, ..asked });\n        }\n        self.is_in", "self.tally.unanswered += 1;\n        }\n        self.is_in", "test_serve_rights.ServeRights.test_the_program_never_sees_it"),
    # units of clients that are gone
    Error("answers.rs", "if self.routing.has_name(name) {", "if false {", "test_serve_ends.ServeOrphans.test_a_line_of_another_is_under_way"),
    Error("answers.rs", "if !serves || !self.units.is_open(name, serial) {", "if !serves {", "test_serve_ends.ServeOrphans.test_units_of_others_are_left_alone"),
    Error("answers.rs", "if owner.is_none_or(|it| self.clients.get(it).is_none()) {", "if false {", "test_serve_ends.ServeOrphans.test_the_claim_was_not_answered"),
    Error("server.rs", "self.orphaned(*name, serial);\n        }\n        say", "let _ = serial;\n        }\n        say", "test_serve_ends.ServeOrphans.test_units_that_a_head_says_are_open"),
    Error("life.rs", "self.orphaned(name, serial);", "let _ = (name, serial);", "test_serve_orphans.ServeOrphansAgain.test_an_abort_whose_answer_was_lost"),
    # ends, and what goes on
    Error("life.rs", "matches!(self.phase, Phase::Drains) && self.routing.is_empty()", "matches!(self.phase, Phase::Drains)", "test_serve_ends.ServeEnds.test_lines_that_wait_are_not_performed"),
    Error("life.rs", "self.dismiss(id, Some(&why));\n        }\n        while", "self.dismiss(id, None);\n        }\n        while", "test_serve_ends.ServeEnds.test_the_session_is_killed"),
    Error("life.rs", "By::Program => self.tell(&it, UNKNOWN),", "By::Program => (),", "test_serve_journals.ServeJournals.test_what_was_not_answered_is_unknown"),
    Error("life.rs", "if was_running && self.has_answered { 0 } else { self.in_vain + 1 }", "0", "test_serve_journals.ServeJournals.test_a_session_that_ends_again_and_again"),
    Error("session.rs", "self.begin(&mut tried, 0)?;", "", "test_serve_journals.ServeJournals.test_a_head_that_is_refused"),
    # the place
    Error("sys.rs", "before = unsafe { umask(0o777 & !mode) }", "before = unsafe { umask(0o077) }", "test_serve.ServeBounds.test_who_may_connect"),
    Error("place.rs", ".custom_flags(sys::NO_FOLLOW)", "", "test_serve_pages.ServeLinks.test_links_are_refused"),
    Error("place.rs", "Err(_) if is_ours(&address).unwrap_or(false) =>", "Err(_) if false =>", "test_serve_pages.ServeLinks.test_files_that_were_deleted"),
    Error("place.rs", "return Err(taken(format!(\"{path} is a symbolic link\")));", "", "test_serve_pages.ServeLinks.test_links_are_refused"),
    Error("place.rs", "Ok(_) => return Err(taken(format!(\"somebody listens on {path}\"))),", "Ok(_) => drop(std::fs::remove_file(path)),", "test_serve_ends.ServePlaces.test_a_place_that_another_program_has"),
    Error("notify.rs", "tell(what: &str) {\n", "tell(what: &str) {\n    if what.len() > 8 { return }\n", "test_serve_pages.ServeSystemd.test_words"),
    Error("listen.rs", "Some(it) => Ok(Socket::HandedOver(it)),", "Some(_) => Place::take(path, options.mode).map(Socket::Own),", "test_serve_pages.ServeSystemd.test_sockets"),
    # pages
    Error("page.rs", "for stage in stages.iter() {", "for stage in told.iter().map(|it| &it.0) {", "test_serve_calls.ServeCalls.test_metrics"),
    Error("tally.rs", "let bits = u128::BITS", "let bits = u128::BITS - 2", "test_serve_pages.ServePages.test_how_long_lines_waited"),
    Error("http.rs", "self.came.len() + many <= LONGEST", "true", "test_serve_pages.ServePages.test_a_request_that_is_too_long"),
    Error("pages.rs", "count.map_or((UNAVAILABLE", "count.map_or((OK", "test_serve_pages.ServePages.test_whether_it_is_ready"),
    Error("pages.rs", "if self.pages.len() < MOST {", "if true {", "test_serve_calls.ServeCalls.test_metrics"),
    # nodes: one that follows takes clients, one that is deposed answers, or answers the next ones what was for those before
    Error("clients.rs", "if let Some(said) = self.follows() {", "if let (Some(said), false) = (self.follows(), true) {", "test_node_server.NodeServers.test_who_is_answered"),
    Error("node.rs", "self.dismiss(id, Some(LEADS_NO_MORE));", "let _ = id;", "test_node_server.NodeServers.test_clients_of_a_leader_that_is_none_any_more"),
    Error("node.rs", "let (_, lost) = self.routing.lose();", "let lost: Vec<u8> = Vec::new();", "test_node_server.NodeServers.test_one_that_leads_again"),
    Error("node.rs", "self.forget_all_waits();", "", "test_node_server.NodeServers.test_lines_that_are_tried_are_nobodys"),
    Error("node.rs", 'format!("# leads {term}\\n")', 'format!("# leads {}\\n", term.min(1))', "test_node_server.NodeServers.test_one_that_leads_again"),
    Error("node.rs", "self.orphaned(name, serial);", "let _ = serial;", "test_node_server.NodeServers.test_units_of_clients_of_an_earlier_leader"),
    Error("node.rs", "self.names = std::mem::take(&mut node.names);", "", "test_node_server.NodeServers.test_lines_that_wait"),
    Error("node.rs", "Some((page, which)) => self.page_answered(page, which, answer),", "Some((page, which)) => self.page_answered(page, which ^ 1, answer),", "test_node_server.NodeServers.test_pages"),
    Error("answers.rs", "self.node.is_some() && is_own(line)", "is_own(line) && self.node_says(line) || self.node.is_some() && is_own(line)", "test_node_server.NodeServers.test_pages"),
    Error("pages.rs", "if let (Wanted::Ready, Some(why)) = (wanted, self.follows()) {", "if let (Wanted::NotThere, Some(why)) = (wanted, self.follows()) {", "test_node_server.NodeServers.test_pages"),
    Error("said.rs", "of.unwrap_or(Status::Lost)", "of.and(None).unwrap_or(Status::Lost)", "test_node_server.NodeEnds.test_a_head_that_is_refused"),
]


def passes(server: str, test: str, seconds: float, answer: float | None) -> bool:
    """Whether the test passes on this server, in so many seconds."""
    environment = {**os.environ, "COVETRIVET_SERVER": server, "PYTHONPATH": f"{TOP}/clients/python:{TESTS}", "PYTHONDONTWRITEBYTECODE": "1"}
    if answer:
        environment["COVETRIVET_TEST_SECONDS"] = str(answer)
    words = [sys.executable, "-m", "unittest", "-q", "-f", test]
    quiet = subprocess.DEVNULL
    with subprocess.Popen(words, cwd=TESTS, env=environment, stdout=quiet, stderr=quiet, start_new_session=True) as run:
        try:
            return run.wait(seconds) == 0
        except subprocess.TimeoutExpired:
            # (with the servers that it has)
            os.killpg(run.pid, signal.SIGKILL)
            return False


def tell_hidden(it: Error, room: str) -> str:
    """Tells of an error that isn't found, or can't be planted."""
    with tempfile.TemporaryDirectory(dir=room) as folder:
        shutil.copytree(TOP / "server" / "src", f"{folder}/src")
        file = Path(folder) / "src" / it.file
        text = file.read_text(encoding="utf-8")
        if text.count(it.old) != 1:
            return f"{it.file} has {it.old!r} {text.count(it.old)} times"
        file.write_text(text.replace(it.old, it.new), encoding="utf-8")
        words = ["rustc", "--edition", "2021", "-A", "warnings", "-C", "panic=abort", f"{folder}/src/main.rs", "-o", f"{folder}/server"]
        built = subprocess.run(words, capture_output=True, text=True, check=False)
        if built.returncode:
            return f"{it.file}: with {it.new!r} in place of {it.old!r} it can't be built: {built.stderr[-400:]}"
        if passes(f"{folder}/server", it.test, SECONDS_WITH_AN_ERROR, SECONDS_FOR_AN_ANSWER):
            return f"{it.file}: {it.new!r} in place of {it.old!r} isn't found by {it.test}"
    return ""


def main() -> int:
    words = [f"{TOP}/server/build"]
    server = subprocess.run(words, stdout=subprocess.PIPE, text=True, check=True).stdout.strip()
    errors = [ERRORS[int(it)] for it in sys.argv[1:]] or ERRORS
    # (a test waits more than it works)
    with tempfile.TemporaryDirectory() as room, ThreadPoolExecutor(os.cpu_count() or 2) as pool:
        tests = list(dict.fromkeys(it.test for it in errors))
        well = pool.map(lambda it: passes(server, it, SECONDS, None), tests)
        wrong = [f"{test} doesn't pass on the server as it is" for test, is_well in zip(tests, well) if not is_well]
        # (a test that fails in any case would find nothing)
        wrong = wrong or [it for it in pool.map(lambda it: tell_hidden(it, room), errors) if it]
    print("\n".join([*wrong, f"{len(errors)} errors, {len(wrong)} not found"]))
    return 1 if wrong else 0


if __name__ == "__main__":
    sys.exit(main())
