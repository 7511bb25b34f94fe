//! What is to be done at some time.
use crate::lines::Name;
use crate::slab::Id;
use std::collections::BTreeSet;
use std::time::Instant;

#[derive(Clone, Copy, PartialEq, Eq, PartialOrd, Ord)]
pub enum Timer {
    /// A line that waits has waited long enough.
    Wait(Id),
    /// The unit of a worker whose client is gone is to be aborted; the number says which unit.
    Orphan(Name, u64),
    /// Connections are to be taken again.
    Accept,
    /// Clients are to be looked at that don't read, or flood.
    Tick,
    /// A request for a page has had its time.
    Page(Id),
    /// A client has had its time to give a token.
    Token(Id),
    /// The journal may be free.
    Restart,
    /// The server has had its time to end.
    End,
}

#[derive(Default)]
pub struct Timers(BTreeSet<(Instant, Timer)>);

impl Timers {
    pub fn put(&mut self, at: Instant, it: Timer) {
        self.0.insert((at, it));
    }

    /// (Where none is there, nothing is done.)
    pub fn cancel(&mut self, at: Instant, it: Timer) {
        self.0.remove(&(at, it));
    }

    pub fn next(&self) -> Option<Instant> {
        self.0.first().map(|it| it.0)
    }

    /// Returns one whose time has come.
    pub fn due(&mut self, now: Instant) -> Option<Timer> {
        self.next().filter(|it| *it <= now)?;
        self.0.pop_first().map(|it| it.1)
    }
}
