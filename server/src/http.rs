//! Requests for pages, by HTTP.
use crate::lines::Verb;
use crate::sys::{self, READABLE, WRITABLE};
use std::io::ErrorKind;
use std::os::fd::{AsRawFd, OwnedFd};
use std::time::Instant;

/// So many requests at once, of so many bytes, and so many seconds each; and so many for the session's
/// answers.
pub const MOST: usize = 8;
const LONGEST: usize = 4096;
pub const SECONDS: f64 = 5.0;
pub const SECONDS_TO_ANSWER: f64 = 1.0;

/// What is asked for.
#[derive(Clone, Copy, PartialEq, Eq, Debug)]
pub enum Wanted {
    Metrics,
    Clients,
    /// Whether the session answers.
    Ready,
    /// Whether the server does.
    Health,
    NotThere,
}

/// The connection of a request.
pub struct Request {
    fd: OwnedFd,
    came: Vec<u8>,
    out: Vec<u8>,
    told: usize,
    pub since: Instant,
    pub wanted: Option<Wanted>,
    /// Answers of the session, as far as they have come, and to what.
    pub answers: Vec<(Verb, Option<String>)>,
    /// What the server itself tells, as of the request.
    pub page: String,
}

/// What has come of it.
pub enum Step {
    /// Nothing more is to be done now.
    Waits,
    Asks(Wanted),
    Over,
}

impl Request {
    pub fn new(fd: OwnedFd, since: Instant) -> Request {
        let (came, out, answers, page) = (Vec::new(), Vec::new(), Vec::new(), String::new());
        Request { fd, came, out, told: 0, since, wanted: None, answers, page }
    }

    pub fn fd(&self) -> i32 {
        self.fd.as_raw_fd()
    }

    /// What it is to be watched for.
    pub fn events(&self) -> u32 {
        match (self.is_answered(), self.wanted) {
            (true, _) => WRITABLE,
            (false, Some(_)) => 0,
            (false, None) => READABLE,
        }
    }

    pub fn is_answered(&self) -> bool {
        !self.out.is_empty()
    }

    /// Something has come, or may be written.
    pub fn go_on(&mut self) -> Step {
        if self.is_answered() {
            return self.write();
        }
        if self.wanted.is_some() {
            // (it may only be told that the other side is gone)
            return Step::Over;
        }
        let mut some = [0; LONGEST];
        match sys::read_some(self.fd(), &mut some) {
            Ok(many) if many > 0 && self.came.len() + many <= LONGEST => {
                self.came.extend_from_slice(&some[..many])
            }
            Err(it) if matches!(it.kind(), ErrorKind::WouldBlock | ErrorKind::Interrupted) => {
                return Step::Waits
            }
            _ => return Step::Over,
        }
        self.wanted = wanted_in(&self.came);
        self.wanted.map_or(Step::Waits, Step::Asks)
    }

    pub fn answer(&mut self, status: &str, text: &str) {
        let kind = "text/plain; version=0.0.4; charset=utf-8";
        let head =
            format!("HTTP/1.0 {status}\r\nContent-Type: {kind}\r\nContent-Length: {}\r\n\r\n", text.len());
        self.out = [head.as_bytes(), text.as_bytes()].concat();
    }

    fn write(&mut self) -> Step {
        match sys::write_some(self.fd(), &self.out[self.told..]) {
            Ok(many) => self.told += many,
            Err(it) if matches!(it.kind(), ErrorKind::WouldBlock | ErrorKind::Interrupted) => (),
            Err(_) => return Step::Over,
        }
        if self.told == self.out.len() {
            Step::Over
        } else {
            Step::Waits
        }
    }
}

/// What a request is for, once its head is there.
pub fn wanted_in(came: &[u8]) -> Option<Wanted> {
    let is_whole = came.windows(4).any(|it| it == b"\r\n\r\n");
    let mut words = came.split(|it| matches!(it, b' ' | b'\r' | b'\n'));
    let (method, path) = (words.next()?, words.next().unwrap_or(b""));
    let wanted = match (method, path) {
        (b"GET", b"/metrics") => Wanted::Metrics,
        (b"GET", b"/clients") => Wanted::Clients,
        (b"GET", b"/ready") => Wanted::Ready,
        (b"GET", b"/healthz") => Wanted::Health,
        _ => Wanted::NotThere,
    };
    is_whole.then_some(wanted)
}

#[cfg(test)]
mod tests {
    use super::*;

    #[test]
    fn requests() {
        for (came, wanted) in [
            ("GET /metrics HTTP/1.0\r\n\r\n", Some(Wanted::Metrics)),
            ("GET /ready HTTP/1.1\r\nHost: a\r\n\r\n", Some(Wanted::Ready)),
            ("GET / HTTP/1.1\r\n\r\n", Some(Wanted::NotThere)),
            ("POST /metrics HTTP/1.1\r\n\r\n", Some(Wanted::NotThere)),
            ("\r\n\r\n", Some(Wanted::NotThere)),
            ("GET /metrics HTTP/1.0\r\n", None),
            ("", None),
        ] {
            assert_eq!(wanted_in(came.as_bytes()), wanted, "{came:?}");
        }
    }
}
