//! How a server ends otherwise than in order.

/// Exit statuses, as of sysexits.h where that has one.
#[derive(Clone, Copy, PartialEq, Eq, Debug)]
pub enum Status {
    Lost = 1,
    WrongWords = 64,
    /// A head, rules or tokens that aren't as they should be.
    BadHead = 65,
    NoHead = 66,
    NoProgram = 69,
    NoPlace = 73,
    NoJournal = 74,
}

/// The exit status, and why.
#[derive(Debug)]
pub struct Fault(pub Status, pub String);

impl Fault {
    pub fn lost(why: &str) -> Fault {
        Fault(Status::Lost, format!("the session is lost: {why}"))
    }
}
