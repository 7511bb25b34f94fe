//! Why a call did not do what was asked.

use std::fmt;

/// Why a call did not do what was asked. It has changed nothing, but where its line says so.
#[derive(Clone, Copy, Debug, PartialEq, Eq)]
#[non_exhaustive]
pub enum Error {
    /// Memory could not be had.
    NoMemory,
    /// A limit is outside its range; of a rollover also: `attempts` is another than before.
    BadLimits,
    /// No caller is at home: all are open.
    NoPart,
    /// The stage is not one that the call may be about; of `claim_id` the element is a reply, of `collect` it is none.
    BadStage,
    /// No such element was born.
    NotThere,
    /// The element was consumed by a unit of work that committed.
    Consumed,
    /// The element was killed or collected before. A refused kill may have aborted units of work.
    AlreadyKilled,
    /// No row and no spare block is left. A commit has aborted its unit of work: the element waits again, or is parked.
    Full,
    /// As `Full` of a commit, but another caller had aborted the unit of work before, as for `Lost`.
    FullLost,
    /// The element isn't parked.
    NotParked,
    /// The element is parked, and has had its three further rounds.
    NoRound,
    /// No unit of work holds the element.
    NotHeld,
    /// The element is held, parked, consumed or killed.
    NotWaiting,
    /// The caller has used its units of work.
    NoUnit,
    /// Another caller had aborted the unit of work: none of it is seen, and it is over.
    Lost,
    /// The caller, or of a rollover one of them, has a unit of work open.
    Busy,
    /// The caller has no unit of work open.
    NoOpen,
    /// There are more than four drafts.
    TooMany,
    /// A draft's stage is not 1 to 15.
    BadDraft,
    /// Not all callers are at home.
    NotAll,
    /// What stands in the new manager isn't what was alive in the old one. No call tells it, which is proved.
    Unequal,
    /// The callers are of different managers, or the caller isn't of this one.
    OtherManager,
    /// A code that this version of the crate doesn't know.
    Unknown(u32),
}

impl Error {
    pub(crate) fn of(code: u32) -> Error {
        match code {
            3 => Error::NoMemory,
            4 => Error::BadLimits,
            5 => Error::NoPart,
            6 => Error::BadStage,
            7 => Error::NotThere,
            8 => Error::Consumed,
            9 => Error::AlreadyKilled,
            10 => Error::Full,
            11 => Error::NotParked,
            12 => Error::NoRound,
            13 => Error::NotHeld,
            14 => Error::NotWaiting,
            15 => Error::NoUnit,
            17 => Error::Lost,
            19 => Error::Busy,
            20 => Error::NoOpen,
            21 => Error::TooMany,
            22 => Error::BadDraft,
            23 => Error::NotAll,
            24 => Error::Unequal,
            26 => Error::FullLost,
            other => Error::Unknown(other),
        }
    }
}

impl fmt::Display for Error {
    fn fmt(&self, f: &mut fmt::Formatter<'_>) -> fmt::Result {
        f.write_str(match self {
            Error::NoMemory => "memory could not be had",
            Error::BadLimits => "a limit is outside its range",
            Error::NoPart => "all callers are open",
            Error::BadStage => "the stage is not one of this call",
            Error::NotThere => "no such element was born",
            Error::Consumed => "the element was consumed",
            Error::AlreadyKilled => "the element was killed before",
            Error::Full => "no row is left",
            Error::FullLost => "no row is left, and another caller had aborted the unit of work",
            Error::NotParked => "the element is not parked",
            Error::NoRound => "the element has had all its rounds",
            Error::NotHeld => "no unit of work holds the element",
            Error::NotWaiting => "the element does not wait",
            Error::NoUnit => "the caller has used its units of work",
            Error::Lost => "another caller had aborted the unit of work",
            Error::Busy => "a unit of work is open",
            Error::NoOpen => "no unit of work is open",
            Error::TooMany => "there are more than four drafts",
            Error::BadDraft => "a draft's stage is not 1 to 15",
            Error::NotAll => "not all callers are at home",
            Error::Unequal => "the new manager is not what the old one was",
            Error::OtherManager => "the caller is of another manager",
            Error::Unknown(code) => return write!(f, "the library answered {code}"),
        })
    }
}

impl std::error::Error for Error {}

/// The value where the code is 0, and else the error that it stands for.
#[inline]
pub(crate) fn told<T>(code: u32, value: T) -> Result<T, Error> {
    if code == crate::sys::OK {
        Ok(value)
    } else {
        Err(Error::of(code))
    }
}
