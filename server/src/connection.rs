//! A client's connection: what has come from it, and what waits to be written to it.
use crate::lines::{Tag, LONGEST_LINE};
use crate::options::Limits;
use crate::rights::{Client, Own};
use crate::sys::{self, find, READABLE, WRITABLE};
use std::io::ErrorKind;
use std::os::fd::{AsRawFd, OwnedFd};
use std::time::Instant;

const READ_AT_ONCE: usize = 16_384;
/// Who has more than so many bytes to read is behind: its next lines wait.
const BEHIND: usize = 65_536;

#[derive(Clone, Copy, PartialEq, Eq, Debug)]
pub enum Reading {
    Open,
    /// It has lines that wait, so no more is read.
    Paused,
    /// No more will come.
    Over,
}

pub struct Connection {
    fd: OwnedFd,
    /// Its number among all connections there ever were.
    pub number: u64,
    pub who: Client,
    pub own: Own,
    /// Over TCP it can't be seen that the other side is gone while a line of it waits.
    pub is_over_tcp: bool,
    pub since: Instant,
    input: Vec<u8>,
    /// Where in the input the next line begins.
    at: usize,
    output: Vec<u8>,
    /// How much of the output is written.
    told: usize,
    /// How many of its lines aren't answered, and how many there were in all.
    pub in_flight: usize,
    pub lines: u64,
    pub reading: Reading,
    /// Whether it stands in the queue of those that have a line.
    pub is_ready: bool,
    /// Whether its next lines come behind one that waits for something.
    pub is_parked: bool,
    /// Whether it is to be closed once all is read.
    pub is_closing: bool,
    /// Whether the other side is gone, for both ways.
    pub is_hung_up: bool,
    /// Whether none of its lines counts any more.
    is_done: bool,
    /// Whether it has answers that the system wasn't given.
    pub is_dirty: bool,
    wants_out: bool,
    /// How many bytes were written in all, and how many a second ago.
    written: u64,
    was_written: u64,
    seconds_stuck: f64,
    pub seconds_paused: u32,
}

/// What came of a read.
pub enum Came {
    Some(usize),
    Nothing,
    /// No more will come.
    End,
    Lost,
}

/// What came of a write.
#[derive(PartialEq, Eq)]
pub enum Flushed {
    All,
    SomeWaits,
    Lost,
}

impl Connection {
    pub fn new(
        fd: OwnedFd,
        number: u64,
        who: Client,
        own: Own,
        is_over_tcp: bool,
        since: Instant,
    ) -> Connection {
        Connection {
            fd,
            number,
            who,
            own,
            is_over_tcp,
            since,
            input: Vec::new(),
            at: 0,
            output: Vec::new(),
            told: 0,
            in_flight: 0,
            lines: 0,
            reading: Reading::Open,
            is_ready: false,
            is_parked: false,
            is_closing: false,
            is_hung_up: false,
            is_done: false,
            is_dirty: false,
            wants_out: false,
            written: 0,
            was_written: 0,
            seconds_stuck: 0.0,
            seconds_paused: 0,
        }
    }

    pub fn fd(&self) -> i32 {
        self.fd.as_raw_fd()
    }

    /// What it is to be watched for.
    pub fn events(&self) -> u32 {
        let reads = if self.reading == Reading::Open { READABLE } else { 0 };
        reads | if self.wants_out { WRITABLE } else { 0 }
    }

    pub fn wants_out(&self) -> bool {
        self.wants_out
    }

    // ---- what comes

    pub fn has_line(&self) -> bool {
        find(&self.input[self.at..], b'\n').is_some()
    }

    /// Whether something has come that is no whole line.
    pub fn has_rest(&self) -> bool {
        self.input.len() > self.at
    }

    pub fn read(&mut self) -> Came {
        self.input.drain(..self.at);
        self.at = 0;
        let mut some = [0; READ_AT_ONCE];
        match sys::read_some(self.fd(), &mut some) {
            Ok(0) => {
                self.reading = Reading::Over;
                Came::End
            }
            Ok(many) => {
                self.input.extend_from_slice(&some[..many]);
                Came::Some(many)
            }
            Err(it) if matches!(it.kind(), ErrorKind::WouldBlock | ErrorKind::Interrupted) => Came::Nothing,
            Err(_) => Came::Lost,
        }
    }

    /// Keeps of the beginning of a line as much as the program refuses, where it is longer.
    pub fn shorten(&mut self) {
        self.input.truncate(self.at + LONGEST_LINE + 1);
        if self.input.len() == self.at {
            self.input.clear();
            self.at = 0;
        }
    }

    /// Takes the input, and where its next line begins, as long as lines of it are handed over.
    pub fn lend_input(&mut self) -> (Vec<u8>, usize) {
        (std::mem::take(&mut self.input), self.at)
    }

    pub fn take_back(&mut self, input: Vec<u8>, at: usize) {
        (self.input, self.at) = if self.is_done { (Vec::new(), 0) } else { (input, at) };
    }

    /// None of its lines counts from now on. (It is called while the input is lent.)
    pub fn refuse_more(&mut self) {
        self.is_done = true;
        self.reading = Reading::Over;
    }

    /// Whether its next line may be handed over.
    pub fn may_hand(&self, limits: &Limits) -> bool {
        !self.is_closing
            && !self.is_done
            && !self.is_parked
            && self.in_flight < limits.lines
            && !self.is_behind()
    }

    // ---- what is written

    /// How many bytes it hasn't read, as far as the server has them.
    pub fn unread(&self) -> usize {
        self.output.len() - self.told
    }

    pub fn is_behind(&self) -> bool {
        self.unread() > BEHIND
    }

    /// Has an answer written, behind all before.
    pub fn put(&mut self, tag: Tag, answer: &[u8]) {
        if !tag.is_none() {
            self.output.push(b'@');
            self.output.extend_from_slice(tag.bytes());
            if !answer.is_empty() {
                self.output.push(b' ');
            }
        }
        self.output.extend_from_slice(answer);
        self.output.push(b'\n');
    }

    /// Writes as much as the system takes.
    pub fn flush(&mut self) -> Flushed {
        while self.told < self.output.len() {
            match sys::write_some(self.fd(), &self.output[self.told..]) {
                Ok(many) => {
                    self.told += many;
                    self.written += many as u64;
                }
                Err(why) if why.kind() == ErrorKind::Interrupted => (),
                Err(why) if why.kind() == ErrorKind::WouldBlock => break,
                Err(_) => return Flushed::Lost,
            }
        }
        self.wants_out = self.told < self.output.len();
        if !self.wants_out {
            self.output.clear();
            self.output.shrink_to(BEHIND);
            self.told = 0;
            return Flushed::All;
        }
        if self.told > BEHIND {
            self.output.drain(..self.told);
            self.told = 0;
        }
        Flushed::SomeWaits
    }

    pub fn written(&self) -> u64 {
        self.written
    }

    /// Comes each second while something waits to be read. Returns for how many seconds nothing of it was.
    pub fn tick(&mut self) -> f64 {
        let is_stuck = self.unread() > 0 && self.written == self.was_written;
        self.was_written = self.written;
        self.seconds_stuck = if is_stuck { self.seconds_stuck + 1.0 } else { 0.0 };
        self.seconds_paused = if self.reading == Reading::Paused { self.seconds_paused + 1 } else { 0 };
        self.seconds_stuck
    }
}
