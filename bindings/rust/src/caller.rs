//! One thread's way to act on a manager.

use crate::error::{told, Error};
use crate::manager::{lock, Home};
use crate::sys::{self, Handle};
use crate::types::{Body, Element, Look, Released, Room, Status};
use crate::work::Work;
use std::sync::Arc;

/// One thread's way to act on a manager. It may go to another thread, and goes on where its manager was given up.
///
/// Dropped, it is at home again, as by [`Manager::hand_back`](crate::Manager::hand_back): also where its thread
/// panics, or a function returns early, as by `?`. One that is forgotten is lost to the account and to rollovers.
// Each call writes to the handle: callers of several threads that lie side by side share no line of the cache.
#[repr(align(128))]
pub struct Caller {
    pub(crate) handle: Handle,
    pub(crate) home: Home,
    // (how many units of work each caller of its manager begins at most)
    units: u16,
}

/// What the library writes where its code is 0.
#[inline]
fn written<T: Default>(call: impl FnOnce(&mut T) -> u32) -> Result<T, Error> {
    let mut value = T::default();
    let code = call(&mut value);
    told(code, value)
}

/// The same, and nothing where this code says that there is none.
#[inline]
fn found<T: Default>(none: u32, call: impl FnOnce(&mut T) -> u32) -> Result<Option<T>, Error> {
    let mut value = T::default();
    match call(&mut value) {
        code if code == none => Ok(None),
        code => told(code, Some(value)),
    }
}

// SAFETY of all below: the handle is a caller's and open, it is used by `&mut`, and what is written to is a local
// value.
//
// What threads call most is inlined into other crates: else the copies of its answer cost some 5 nanoseconds.
impl Caller {
    #[inline]
    pub(crate) fn of(handle: Handle, home: Home, units: u16) -> Caller {
        Caller { handle, home, units }
    }

    /// Puts an element into the queue of a stage, 1 to 14. Its id. `BadStage`, `Full`.
    #[inline]
    pub fn submit(&mut self, stage: u8, body: Body) -> Result<u32, Error> {
        written(|id| unsafe { sys::covetrivet_submit(&mut self.handle, stage, &body, id) })
    }

    /// The element with this id, and how it stands. `NotThere`.
    #[inline]
    pub fn read(&mut self, id: u32) -> Result<Look, Error> {
        written(|look| unsafe { sys::covetrivet_read(&mut self.handle, id, look) }).map(|it| Look::of(&it))
    }

    /// How many further rounds of attempts it was given, 0 to 3. `NotThere`.
    #[inline]
    pub fn rounds(&mut self, id: u32) -> Result<u8, Error> {
        written(|rounds| unsafe { sys::covetrivet_rounds(&mut self.handle, id, rounds) })
    }

    /// The least id from this one on of a waiting reply to the request with this root.
    #[inline]
    pub fn reply(&mut self, root: u32, from: u32) -> Option<u32> {
        found(sys::NONE, |id| unsafe { sys::covetrivet_reply(&mut self.handle, root, from, id) }).ok()?
    }

    /// The least id from this one on of an element that is parked.
    #[inline]
    pub fn next_error(&mut self, from: u32) -> Option<u32> {
        found(sys::NONE, |id| unsafe { sys::covetrivet_next_error(&mut self.handle, from, id) }).ok()?
    }

    /// The element of the request with this root that has the least id from this one on, and how it stands.
    pub fn family(&mut self, root: u32, from: u32) -> Option<Look> {
        let look: Option<sys::Look> =
            found(sys::NONE, |look| unsafe { sys::covetrivet_family(&mut self.handle, root, from, look) }).ok()?;
        look.map(|it| Look::of(&it))
    }

    /// Takes the reply with this id, once, by killing it. `NotThere`, `BadStage`, `AlreadyKilled`, `Busy`.
    #[inline]
    pub fn collect(&mut self, id: u32) -> Result<Element, Error> {
        written(|reply| unsafe { sys::covetrivet_collect(&mut self.handle, id, reply) }).map(|it| Element::of(&it))
    }

    /// Takes the waiting reply with the least id to the request with this root, once, if there is one. `Busy`.
    #[inline]
    pub fn collect_next(&mut self, root: u32) -> Result<Option<Element>, Error> {
        let reply: Option<sys::Element> =
            found(sys::NONE, |reply| unsafe { sys::covetrivet_collect_next(&mut self.handle, root, reply) })?;
        Ok(reply.map(|it| Element::of(&it)))
    }

    /// Gives a parked element another round of attempts: it waits again, with none so far. Which, 1 to 3. `NotThere`,
    /// `NotParked`, `NoRound`.
    pub fn requeue(&mut self, id: u32) -> Result<u8, Error> {
        written(|round| unsafe { sys::covetrivet_requeue(&mut self.handle, id, round) })
    }

    /// Kills an element. How many units of work that held it were aborted. `NotThere`, `Consumed`, `AlreadyKilled`,
    /// `Busy`.
    #[inline]
    pub fn kill(&mut self, id: u32) -> Result<u8, Error> {
        written(|aborted| unsafe { sys::covetrivet_kill(&mut self.handle, id, aborted) })
    }

    /// Cancels a request: kills each element of its family that is no reply and neither consumed nor killed, and
    /// aborts the units of work that hold one. How many it killed; with 0 all were finished, and replies may be
    /// there. `NotThere`, `Busy`.
    pub fn cancel(&mut self, root: u32) -> Result<u32, Error> {
        written(|killed| unsafe { sys::covetrivet_cancel(&mut self.handle, root, killed) })
    }

    /// Aborts the unit of work that holds an element. Which that was. `NotThere`, `NotHeld`, `Busy`.
    pub fn release(&mut self, id: u32) -> Result<Released, Error> {
        written(|released| unsafe { sys::covetrivet_release(&mut self.handle, id, released) })
    }

    /// Takes the element of a stage, 1 to 14, that waits and has the least id, if there is one. `BadStage`, `NoUnit`,
    /// `Busy`.
    #[inline]
    pub fn claim(&mut self, stage: u8) -> Result<Option<Work<'_>>, Error> {
        let work = found(sys::IDLE, |work| unsafe { sys::covetrivet_claim(&mut self.handle, stage, work) })?;
        Ok(work.map(|it| Work::of(self, &it)))
    }

    /// Takes the one that comes next, as in a circle, behind the one that this caller took last so. One that is given
    /// up again and again lets others pass. Otherwise as [`claim`](Caller::claim).
    #[inline]
    pub fn claim_next(&mut self, stage: u8) -> Result<Option<Work<'_>>, Error> {
        let work = found(sys::IDLE, |work| unsafe { sys::covetrivet_claim_next(&mut self.handle, stage, work) })?;
        Ok(work.map(|it| Work::of(self, &it)))
    }

    /// Takes the element with this id. `NotThere`, `BadStage`, `NotWaiting`, `NoUnit`, `Busy`.
    #[inline]
    pub fn claim_id(&mut self, id: u32) -> Result<Work<'_>, Error> {
        let work = written(|work| unsafe { sys::covetrivet_claim_id(&mut self.handle, id, work) })?;
        Ok(Work::of(self, &work))
    }

    /// The unit of work that it has open, where that holds the element with this id: as after a rollover, which names
    /// the holder of each element ([`Moved::holder`](crate::Moved::holder)). `NotThere`.
    pub fn in_hand(&mut self, id: u32) -> Result<Option<Work<'_>>, Error> {
        let look = self.read(id)?;
        match look.status {
            Status::Held { unit, attempt } if unit / self.units == self.number() && self.has_open() => {
                Ok(Some(Work::again(self, look.element, unit, attempt)))
            }
            _ => Ok(None),
        }
    }

    /// Gives up the open unit of work, as of [`Work`] that was forgotten. `NoOpen`, `Lost`.
    #[inline]
    pub fn abort(&mut self) -> Result<(), Error> {
        told(unsafe { sys::covetrivet_abort(&mut self.handle) }, ())
    }

    /// The number of the caller, from 0 on.
    pub fn number(&mut self) -> u16 {
        written(|number| unsafe { sys::covetrivet_number(&mut self.handle, number) }).unwrap_or_default()
    }

    /// What is left to it, spare blocks aside.
    pub fn room(&mut self) -> Room {
        written(|room| unsafe { sys::covetrivet_room(&mut self.handle, room) }).unwrap_or_default()
    }

    /// Whether it has a unit of work open.
    pub fn has_open(&mut self) -> bool {
        let code: Result<u8, Error> = written(|it| unsafe { sys::covetrivet_has_open(&mut self.handle, it) });
        code == Ok(1)
    }

    /// How many first rows of a part have nothing alive of a stage, 1 to 15, or with 0 of any, as it last found it.
    pub fn low(&mut self, stage: u8, part: u16) -> u16 {
        written(|low| unsafe { sys::covetrivet_low(&mut self.handle, stage, part, low) }).unwrap_or_default()
    }

    /// How many spare blocks were drawn, as it last found it.
    pub fn seen_blocks(&mut self) -> u16 {
        written(|blocks| unsafe { sys::covetrivet_seen_blocks(&mut self.handle, blocks) }).unwrap_or_default()
    }

    /// The two show each other what they have seen. `OtherManager` where they are of two managers.
    pub fn meet(&mut self, other: &mut Caller) -> Result<(), Error> {
        if !Arc::ptr_eq(&self.home, &other.home) {
            return Err(Error::OtherManager);
        }
        // (both are of one manager, as is asked for)
        told(unsafe { sys::covetrivet_meet(&mut self.handle, &mut other.handle) }, ())
    }
}

impl Drop for Caller {
    fn drop(&mut self) {
        // (one that was handed back has nothing to close)
        if !self.handle.is_closed() {
            unsafe { sys::covetrivet_close(&mut lock(&self.home), &mut self.handle) };
        }
    }
}
