//! An open unit of work.

use crate::caller::Caller;
use crate::error::{told, Error};
use crate::sys;
use crate::types::{Body, Draft, Element, Look, Room};
use std::ops::Range;

/// A unit of work that holds an element. Dropped, it is aborted: the element waits again, or is parked.
#[must_use = "work that is dropped is aborted"]
pub struct Work<'a> {
    caller: &'a mut Caller,
    element: Element,
    unit: u16,
    attempt: u8,
    is_open: bool,
}

impl<'a> Work<'a> {
    #[inline]
    pub(crate) fn of(caller: &'a mut Caller, work: &sys::Work) -> Work<'a> {
        Work {
            caller,
            element: Element::of(&work.element),
            unit: work.unit,
            attempt: work.attempt,
            is_open: true,
        }
    }

    /// A unit that was left, and goes on.
    pub(crate) fn again(caller: &'a mut Caller, element: Element, unit: u16, attempt: u8) -> Work<'a> {
        Work { caller, element, unit, attempt, is_open: true }
    }

    /// The element that it holds.
    #[inline]
    pub fn element(&self) -> &Element {
        &self.element
    }

    /// Its own number.
    #[inline]
    pub fn unit(&self) -> u16 {
        self.unit
    }

    /// The how manieth of the element's round it is, from 1 on.
    #[inline]
    pub fn attempt(&self) -> u8 {
        self.attempt
    }

    /// Consumes the element and makes these outputs, at most four, in one step. Their ids. Refused as `Lost`, `Full` or
    /// `FullLost` it is over: `Full` aborted it, so that the element waits again or is parked; else another caller had,
    /// and what became of the element is its doing. Refused as `TooMany` or `BadDraft` it is dropped,
    /// and so aborted.
    #[inline]
    pub fn commit(mut self, drafts: &[Draft]) -> Result<Range<u32>, Error> {
        let mut born = sys::Born::default();
        // SAFETY: the handle is a caller's and open; the drafts are a slice.
        let code = unsafe {
            sys::covetrivet_commit(&mut self.caller.handle, drafts.as_ptr(), drafts.len(), &mut born)
        };
        let told = told(code, born.first..born.first + u32::from(born.count));
        self.is_open = matches!(told, Err(Error::TooMany | Error::BadDraft));
        told
    }

    /// Leaves it open, so that its caller can be handed back while it goes on: over a rollover, say. Who opens that
    /// caller next has it [in hand](Caller::in_hand).
    pub fn leave(mut self) {
        self.is_open = false;
    }

    /// Gives it up: the element waits again, or is parked. `Lost` where another caller had aborted it.
    #[inline]
    pub fn abort(mut self) -> Result<(), Error> {
        self.is_open = false;
        self.caller.abort()
    }
}

impl Drop for Work<'_> {
    #[inline]
    fn drop(&mut self) {
        if self.is_open {
            // (where another caller was quicker it is aborted too)
            let _ = self.caller.abort();
        }
    }
}

/// What its caller may do meanwhile: the rest would be refused as `Busy`. (The caller itself isn't lent, since another
/// could be put into its place.)
impl Work<'_> {
    /// As [`Caller::submit`].
    #[inline]
    pub fn submit(&mut self, stage: u8, body: Body) -> Result<u32, Error> {
        self.caller.submit(stage, body)
    }

    /// As [`Caller::read`].
    #[inline]
    pub fn read(&mut self, id: u32) -> Result<Look, Error> {
        self.caller.read(id)
    }

    /// As [`Caller::rounds`].
    pub fn rounds(&mut self, id: u32) -> Result<u8, Error> {
        self.caller.rounds(id)
    }

    /// As [`Caller::requeue`].
    pub fn requeue(&mut self, id: u32) -> Result<u8, Error> {
        self.caller.requeue(id)
    }

    /// As [`Caller::reply`].
    #[inline]
    pub fn reply(&mut self, root: u32, from: u32) -> Option<u32> {
        self.caller.reply(root, from)
    }

    /// As [`Caller::next_error`].
    pub fn next_error(&mut self, from: u32) -> Option<u32> {
        self.caller.next_error(from)
    }

    /// As [`Caller::family`].
    pub fn family(&mut self, root: u32, from: u32) -> Option<Look> {
        self.caller.family(root, from)
    }

    /// As [`Caller::room`].
    pub fn room(&mut self) -> Room {
        self.caller.room()
    }
}
