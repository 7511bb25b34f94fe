//! A queued transaction manager in memory, without locks, for the threads of a program.
//!
//! A [`Manager`] holds *elements* in stages 1 to 14. Each thread acts through a [`Caller`] of its own: it submits
//! elements, claims one of a stage into a unit of [`Work`], and commits that with up to four outputs. The commit
//! consumes the element and makes the outputs in one step. Work that is dropped is aborted: its element waits again,
//! and is parked once its attempts are used up.
//!
//! ```
//! use covetrivet::{Draft, Limits, Manager};
//!
//! let manager = Manager::new(Limits { parts: 2, rows: 8, units: 8, spare: 0, attempts: 3 })?;
//! let (mut client, mut server) = (manager.open()?, manager.open()?);
//! let order = client.submit(1, [2, 3, 0, 0])?;
//! if let Some(work) = server.claim(1)? {
//!     let [a, b, ..] = work.element().body;
//!     work.commit(&[Draft::reply([a + b, 0, 0, 0])])?;
//! }
//! assert_eq!(client.collect_next(order)?.unwrap().body[0], 5);
//! # Ok::<(), covetrivet::Error>(())
//! ```
//!
//! No call waits: who finds nothing asks again later. Rows and units of work are used once, and what is finished gives
//! none back. So [`Error::Full`] and [`Error::NoUnit`] mean that it is time for a rollover ([`Manager::roll_over`]).
//! Each thread hands its caller back ([`Manager::hand_back`]) and waits, say for a `Condvar`; one of them rolls over
//! and exchanges the ids that the program keeps; and each opens a caller again. docs/C.md of the repository has more.
//!
//! ```
//! use covetrivet::{Draft, Error, Limits, Manager};
//!
//! let manager = Manager::new(Limits { parts: 1, rows: 2, units: 2, spare: 0, attempts: 3 })?;
//! let mut caller = manager.open()?;
//! let order = caller.submit(1, [7, 0, 0, 0])?;
//! caller.claim(1)?.unwrap().commit(&[Draft::new(2, [8, 0, 0, 0])])?;
//! assert_eq!(caller.submit(1, [9, 0, 0, 0]), Err(Error::Full));
//!
//! manager.hand_back(caller).map_err(|(_, error)| error)?;
//! let moved = manager.succeed()?;
//! // (the request's first element was consumed, so its family has a new root, which is consumed too)
//! assert_eq!((moved.len(), moved[0].old_root, manager.account()?.total.consumed), (1, order, 1));
//!
//! let mut caller = manager.open()?;
//! assert_eq!(caller.claim(2)?.unwrap().element().root, moved[0].new_root);
//! # Ok::<(), covetrivet::Error>(())
//! ```
//!
//! The calls are proved in Rattle; docs/C.md of the repository says what is trusted besides,
//! and this crate keeps to what is listed there: the handles are never null, never copied, and used by one thread at
//! a time.

mod caller;
mod error;
mod manager;
mod sys;
mod types;
mod work;

pub use caller::Caller;
pub use error::Error;
pub use manager::Manager;
pub use types::{Account, Body, Counts, Draft, Element, Limits, Look, Moved, Released, Room, Status, REPLIES};
pub use work::Work;

/// The version of the library that is linked: 1,000 times the major, plus the minor, then 1,000 times that, plus the
/// patch.
pub fn version() -> u32 {
    // SAFETY: it takes nothing.
    unsafe { sys::covetrivet_version() }
}
