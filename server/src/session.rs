//! A session: what begins it, and what goes on with it in another process.
use crate::fault::{Fault, Status};
use crate::head::{beginning, is_answered, is_only_head, note_name, Names};
use crate::lines::{name_of, Name};
use crate::program::Program;
use crate::sys;
use std::fs::File;
use std::io::Read;
use std::time::{Duration, Instant};

/// So many lines of a head's commands are sent at once: a pipe takes them though nothing reads yet.
const LINES_AT_ONCE: usize = 64;
/// A journal whose last program isn't over has its lock for so long at most.
pub const SECONDS_TO_LET_GO: u64 = 5;
pub const BETWEEN_TRIES: Duration = Duration::from_millis(20);
/// A journal's own lines have this sign, or begin with the other one.
const END_OF_BATCH: u8 = 0x17;
const END_OF_TEXT: u8 = 0;

pub struct Session {
    pub program: Vec<String>,
    pub journal: Option<String>,
    pub head: Vec<String>,
    /// The file of the head.
    pub file: String,
    /// Whether the program is a node of a cluster, which says itself when there is a session.
    pub is_node: bool,
}

impl Session {
    pub fn words_with(&self, journal: &str) -> Vec<String> {
        [&self.program[..], &["--journal".into(), journal.into()]].concat()
    }

    /// Whether a program may have the journal now.
    pub fn is_free(journal: &str) -> bool {
        match File::options().read(true).write(true).open(format!("{journal}.lock")) {
            Ok(it) => sys::lock(&it),
            Err(_) => true,
        }
    }

    /// Begins the session. Returns its program, who has units open, and what is known of names.
    pub fn start(&self) -> Result<(Program, Vec<Name>, Names), Fault> {
        if self.is_node {
            let it = Program::start(&self.program)?;
            it.unblock();
            return Ok((it, Vec::new(), Names::new()));
        }
        let mut it = match &self.journal {
            Some(path) => self.start_with(path)?,
            None => {
                let mut it = Program::start(&self.program)?;
                self.begin(&mut it, 0)?;
                it
            }
        };
        it.send([ASKS_HOLDS.to_string()].iter());
        let names = in_hand(&it.line()?).ok_or_else(|| Fault::lost("it doesn't answer what is asked"))?;
        if !it.rest.is_empty() {
            it.kill();
            let said = String::from_utf8_lossy(&it.rest).into_owned();
            return Err(Fault::lost(&format!("it answered more than it was asked: {said:?}")));
        }
        it.unblock();
        Ok((it, names, self.names()))
    }

    fn start_with(&self, journal: &str) -> Result<Program, Fault> {
        let until = Instant::now() + Duration::from_secs(SECONDS_TO_LET_GO);
        while !Session::is_free(journal) && Instant::now() < until {
            std::thread::sleep(BETWEEN_TRIES);
        }
        let mut it = Program::start(&self.words_with(journal))?;
        let recovered = match it.line() {
            Ok(line) => recovered(&line)?,
            Err(why) => return Err(it.fault_of_journal().map_or(why, |it| no_journal(journal, &it))),
        };
        let known = self.known(journal, recovered)?;
        self.begin(&mut it, known)?;
        Ok(it)
    }

    /// Returns how many of the lines to begin with need not be sent. A journal may have some of them alone,
    /// where its beginning was cut short.
    fn known(&self, journal: &str, recovered: usize) -> Result<usize, Fault> {
        let (first, others) = beginning(&self.head);
        let wanted = [first, others].concat();
        if recovered == 0 {
            // What is refused would stay in the journal. So the lines are tried without one before.
            let mut tried = Program::start(&self.program)?;
            self.begin(&mut tried, 0)?;
            tried.close_input();
            tried.ended();
            return Ok(0);
        }
        if recovered >= wanted.len() {
            return Ok(wanted.len());
        }
        let text = text_of(journal);
        let there = lines_in(&text).take(recovered).map(|it| String::from_utf8_lossy(it).into_owned());
        let there: Vec<String> = there.collect();
        // (an empty line stands for one that only asked)
        if there.iter().zip(&wanted).all(|(it, line)| it.is_empty() || it == line) {
            return Ok(recovered);
        }
        if is_only_head(&there) {
            return Err(Fault(Status::NoJournal, format!("{journal} has the beginning of another head")));
        }
        Ok(wanted.len())
    }

    /// Sends the lines to begin with, but for so many that are known. One of the head has no answer unless it
    /// is refused, so a first command tells that none was.
    fn begin(&self, it: &mut Program, known: usize) -> Result<(), Fault> {
        let (first, others) = beginning(&self.head);
        if known < first.len() {
            it.send(first[known..].iter());
            let mut answer = it.line()?;
            while answer.starts_with("version ") {
                answer = it.line()?;
            }
            if answer.starts_with("refused ") {
                let line = line_of_refusal(&answer).and_then(|it| first.get(it.checked_sub(1)?));
                let line = line.map_or(String::new(), |it| format!("{it}: "));
                return Err(Fault(Status::BadHead, format!("{}: {line}{answer}", self.file)));
            }
        }
        for piece in others.get(known.saturating_sub(first.len())..).unwrap_or(&[]).chunks(LINES_AT_ONCE) {
            it.send(piece.iter());
            for _ in piece.iter().filter(|it| is_answered(it)) {
                let answer = it.line()?;
                let more = answer.strip_prefix("dumped ").and_then(|it| it.parse().ok()).unwrap_or(0);
                for _ in 0..more {
                    it.line()?;
                }
            }
        }
        Ok(())
    }

    /// What the lines say of names that the session has had.
    fn names(&self) -> Names {
        let mut names = Names::new();
        match &self.journal {
            Some(path) => lines_in(&text_of(path)).for_each(|it| note_name(&mut names, it)),
            None => self.head.iter().for_each(|it| note_name(&mut names, it.as_bytes())),
        }
        names
    }
}

/// What tells who has a unit open, or has lost one.
pub const ASKS_HOLDS: &str = "holds";

/// Returns who has units open, by the answer.
pub fn in_hand(answer: &str) -> Option<Vec<Name>> {
    let held = answer.strip_prefix("holds")?.split(' ').skip(1);
    Some(held.map(|it| name_of(it.split(':').next().unwrap_or("").as_bytes())).collect())
}

/// Returns how many lines a journal had, by the first answer.
pub fn recovered(answer: &str) -> Result<usize, Fault> {
    let number = answer.strip_prefix("recovered ").and_then(|it| it.split(" cut ").next()?.parse().ok());
    number.ok_or_else(|| {
        Fault(Status::NoJournal, format!("the program keeps no journal: it answers {answer:?}"))
    })
}

pub fn no_journal(path: &str, why: &str) -> Fault {
    Fault(Status::NoJournal, format!("{path}: {why}"))
}

fn line_of_refusal(answer: &str) -> Option<usize> {
    answer.strip_prefix("refused line ")?.split(':').next()?.parse().ok()
}

fn text_of(journal: &str) -> Vec<u8> {
    let mut bytes = Vec::new();
    let _ = File::open(journal).and_then(|mut it| it.read_to_end(&mut bytes));
    bytes
}

/// Returns the lines of the session that this text of a journal has. The dump at its front is among them.
fn lines_in(text: &[u8]) -> impl Iterator<Item = &[u8]> {
    let lines = text.split(|it| *it == b'\n').skip(1).take_while(|it| it.first() != Some(&END_OF_TEXT));
    lines.filter(|it| !it.contains(&END_OF_BATCH))
}

#[cfg(test)]
mod tests {
    use super::*;

    #[test]
    fn what_is_told_at_the_start() {
        assert_eq!(in_hand("holds"), Some(vec![]));
        assert_eq!(in_hand("holds till:3:4:1 ann:7:9:lost"), Some(vec![Name::of(b"till"), Name::of(b"ann")]));
        assert_eq!(in_hand("waiting 0"), None);
        assert_eq!(recovered("recovered 12").ok(), Some(12));
        assert_eq!(recovered("recovered 12 cut 37").ok(), Some(12));
        assert!(recovered("waiting 0 held 0").is_err());
        assert_eq!(line_of_refusal("refused line 12: 5 BadName"), Some(12));
    }
}
