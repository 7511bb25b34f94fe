//! What a node of a cluster says besides answers (docs/decisions/55-nodes-over-the-server.md).
use crate::fault::Status;

/// What such a line begins with. No line of a session has this sign.
const SIGN: u8 = 1;

#[derive(Debug, PartialEq)]
pub enum Said<'a> {
    /// A line by which the session has a name.
    Name(&'a [u8]),
    /// It leads, in this term; and who has units open, as `holds` is answered.
    Leads(u64, &'a str),
    /// It leads no more, or didn't, and what clients are told then.
    Follows(&'a str),
    /// The answer to a line of the server's own.
    Told(&'a [u8]),
    /// It can't go on, by this status, and why.
    Ends(Status, &'a str),
}

/// Whether a line is a node's own, and no answer.
pub fn is_own(line: &[u8]) -> bool {
    line.first() == Some(&SIGN)
}

/// Returns what it says. None where it is no such line.
pub fn said_in(line: &[u8]) -> Option<Said<'_>> {
    let (word, rest) = cut(line.strip_prefix(&[SIGN])?);
    let text = || std::str::from_utf8(rest).ok();
    match word {
        b"name" => Some(Said::Name(rest)),
        b"leads" => {
            let (term, holds) = text()?.split_once(' ')?;
            Some(Said::Leads(term.parse().ok()?, holds))
        }
        b"follows" => text().map(Said::Follows),
        b"told" => Some(Said::Told(rest)),
        b"ends" => {
            let (status, why) = text()?.split_once(' ')?;
            Some(Said::Ends(status_of(status), why))
        }
        _ => None,
    }
}

fn cut(line: &[u8]) -> (&[u8], &[u8]) {
    match line.iter().position(|it| *it == b' ') {
        Some(at) => (&line[..at], &line[at + 1..]),
        None => (line, b""),
    }
}

fn status_of(word: &str) -> Status {
    let of = [Status::BadHead, Status::NoProgram].into_iter().find(|it| word == (*it as i32).to_string());
    of.unwrap_or(Status::Lost)
}

#[cfg(test)]
mod tests {
    use super::*;

    #[test]
    fn what_a_node_says() {
        for (line, said) in [
            ("\x01name worker ann 3", Said::Name(b"worker ann 3")),
            ("\x01leads 12345678901 holds", Said::Leads(12_345_678_901, "holds")),
            ("\x01leads 7 holds ann:3:4:1", Said::Leads(7, "holds ann:3:4:1")),
            ("\x01follows b leads", Said::Follows("b leads")),
            ("\x01told waiting 0", Said::Told(b"waiting 0")),
            ("\x01told", Said::Told(b"")),
            ("\x01ends 65 the head is refused", Said::Ends(Status::BadHead, "the head is refused")),
            ("\x01ends 1 answers differ", Said::Ends(Status::Lost, "answers differ")),
        ] {
            assert!(is_own(line.as_bytes()));
            assert_eq!(said_in(line.as_bytes()), Some(said), "{line:?}");
        }
    }

    #[test]
    fn what_is_none_of_it() {
        for line in
            ["", "leads 7 holds", "\x01", "\x01leads", "\x01leads x holds", "\x01leads 7", "\x01ends 65"]
        {
            assert_eq!(said_in(line.as_bytes()), None, "{line:?}");
        }
        assert!(!is_own(b"ann idle") && !is_own(b""));
    }
}
