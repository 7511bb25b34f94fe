//! The values that callers hand in and get back.

use crate::sys;

/// The body of an element, which no call changes.
pub type Body = [u64; 4];

/// The stage of replies, which no server takes from.
pub const REPLIES: u8 = 15;

/// The limits of a manager.
#[repr(C)]
#[derive(Clone, Copy, Debug, PartialEq, Eq)]
pub struct Limits {
    /// Callers, 1 to 32.
    pub parts: u16,
    /// Elements that each makes in rows of its own, 1 to 256.
    pub rows: u16,
    /// Units of work that each begins, 1 to 1,024.
    pub units: u16,
    /// Spare blocks of 8 rows, for any of them, 0 to 256.
    pub spare: u16,
    /// Attempts before an element is parked, 1 to 7.
    pub attempts: u8,
}

/// An element. Nothing of it ever changes.
#[derive(Clone, Copy, Debug, PartialEq, Eq)]
pub struct Element {
    /// Its id, below the manager's capacity.
    pub id: u32,
    /// The id of the client's element that it goes back to; its own where a client submitted it.
    pub root: u32,
    /// The unit of work that made it, or `None` where a client submitted it.
    pub by: Option<u16>,
    /// Its stage, 1 to 14, or [`REPLIES`].
    pub stage: u8,
    pub body: Body,
}

impl Element {
    #[inline]
    pub(crate) fn of(it: &sys::Element) -> Element {
        Element {
            id: it.id,
            root: it.root,
            by: u16::try_from(it.by).ok(),
            stage: it.stage,
            body: it.body,
        }
    }
}

/// How an element stands.
#[derive(Clone, Copy, Debug, PartialEq, Eq)]
pub enum Status {
    /// It may be claimed. So many units of its round were aborted.
    Waiting { attempts: u8 },
    /// A unit of work holds it, the `attempt`-th of its round.
    Held { unit: u16, attempt: u8 },
    /// A unit of work took it and committed.
    Consumed { unit: u16 },
    /// All attempts of its round were aborted.
    Parked { attempts: u8 },
    /// It was killed, and is never taken again.
    Killed,
}

/// An element, and how it stood at a point of the call.
#[derive(Clone, Copy, Debug, PartialEq, Eq)]
pub struct Look {
    pub element: Element,
    pub status: Status,
}

impl Look {
    #[inline]
    pub(crate) fn of(it: &sys::Look) -> Look {
        let (unit, attempts) = (it.status.unit, it.status.attempts);
        Look {
            element: Element::of(&it.element),
            status: match it.status.kind {
                0 => Status::Waiting { attempts },
                1 => Status::Held { unit, attempt: attempts },
                2 => Status::Consumed { unit },
                3 => Status::Parked { attempts },
                _ => Status::Killed,
            },
        }
    }
}

/// An output of a unit of work, before it is born.
#[repr(C)]
#[derive(Clone, Copy, Debug, PartialEq, Eq)]
pub struct Draft {
    body: Body,
    stage: u8,
}

impl Draft {
    /// An output for a stage, 1 to 14, or for [`REPLIES`]. A commit refuses another stage as `BadDraft`.
    #[inline]
    pub fn new(stage: u8, body: Body) -> Draft {
        Draft { body, stage }
    }

    /// A reply to the client.
    #[inline]
    pub fn reply(body: Body) -> Draft {
        Draft::new(REPLIES, body)
    }
}

/// The unit of work that a release aborted, the `attempt`-th of its element's round.
#[repr(C)]
#[derive(Clone, Copy, Debug, Default, PartialEq, Eq)]
pub struct Released {
    pub unit: u16,
    pub attempt: u8,
}

/// What is left to a caller, spare blocks aside.
#[repr(C)]
#[derive(Clone, Copy, Debug, Default, PartialEq, Eq)]
pub struct Room {
    pub rows: u16,
    pub units: u16,
}

/// How many elements there are of each kind of status.
#[repr(C)]
#[derive(Clone, Copy, Debug, Default, PartialEq, Eq)]
pub struct Counts {
    pub waiting: u32,
    pub held: u32,
    pub consumed: u32,
    pub parked: u32,
    pub killed: u32,
}

/// How many elements there are, in all and by stage: those of stage s at index s - 1.
#[derive(Clone, Copy, Debug, Default, PartialEq, Eq)]
pub struct Account {
    pub total: Counts,
    pub stages: [Counts; 15],
}

/// One element that a rollover carried over: its id and its root's, in the old manager and in the new one.
///
/// All of one family have one old root, and one new root: who kept the old one as a request goes on with the new one.
#[repr(C)]
#[derive(Clone, Copy, Debug, Default, PartialEq, Eq)]
pub struct Moved {
    pub old: u32,
    pub new: u32,
    pub old_root: u32,
    pub new_root: u32,
    holder: u32,
}

impl Moved {
    /// The number of the caller that has it in hand in either manager, if one has.
    pub fn holder(&self) -> Option<u16> {
        u16::try_from(self.holder).ok()
    }
}
