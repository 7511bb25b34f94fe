//! The C library's own calls and shapes (include/covetrivet.h).

use crate::types::{Counts, Draft, Limits, Moved, Released, Room};
use std::ffi::c_void;
use std::ptr::null_mut;

/// A handle: null, or what leads to something of the library. It is never copied. (What follows in the header's
/// caller is not used.)
#[repr(C)]
pub struct Handle {
    at: *mut c_void,
}

impl Handle {
    pub const fn closed() -> Handle {
        Handle { at: null_mut() }
    }

    pub fn is_closed(&self) -> bool {
        self.at.is_null()
    }
}

// SAFETY: `Send` is proved of what a handle leads to (`CallerHandle` and `HomeHandle` of crates/covetrivet_c).
unsafe impl Send for Handle {}

#[repr(C)]
#[derive(Clone, Copy, Default)]
pub struct Element {
    pub body: [u64; 4],
    pub id: u32,
    pub root: u32,
    pub by: u32,
    pub stage: u8,
}

#[repr(C)]
#[derive(Clone, Copy, Default)]
pub struct Work {
    pub element: Element,
    pub unit: u16,
    pub attempt: u8,
}

#[repr(C)]
#[derive(Clone, Copy, Default)]
pub struct Status {
    pub unit: u16,
    pub kind: u8,
    pub attempts: u8,
}

#[repr(C)]
#[derive(Clone, Copy, Default)]
pub struct Look {
    pub element: Element,
    pub status: Status,
}

#[repr(C)]
#[derive(Clone, Copy, Default)]
pub struct Born {
    pub first: u32,
    pub count: u8,
}

extern "C" {
    pub fn covetrivet_version() -> u32;
    #[cfg(test)]
    fn covetrivet_size(of: u32) -> usize;

    pub fn covetrivet_make(limits: &Limits, manager: &mut Handle) -> u32;
    pub fn covetrivet_give_up(manager: &mut Handle) -> u32;
    pub fn covetrivet_open(manager: &mut Handle, caller: &mut Handle) -> u32;
    pub fn covetrivet_open_number(manager: &mut Handle, number: u16, caller: &mut Handle) -> u32;
    pub fn covetrivet_hand_back(manager: &mut Handle, caller: &mut Handle) -> u32;
    pub fn covetrivet_close(manager: &mut Handle, caller: &mut Handle) -> u32;
    pub fn covetrivet_get_limits(manager: &mut Handle, limits: &mut Limits) -> u32;
    pub fn covetrivet_capacity(manager: &mut Handle, capacity: &mut u32) -> u32;
    pub fn covetrivet_account(manager: &mut Handle, stage: u8, counts: &mut Counts) -> u32;
    pub fn covetrivet_gather(manager: &mut Handle) -> u32;
    pub fn covetrivet_roll_over(manager: &mut Handle, limits: &Limits, count: &mut usize) -> u32;
    pub fn covetrivet_moved_at(manager: &mut Handle, place: usize, moved: &mut Moved) -> u32;

    pub fn covetrivet_submit(caller: &mut Handle, stage: u8, body: &[u64; 4], id: &mut u32) -> u32;
    pub fn covetrivet_read(caller: &mut Handle, id: u32, look: &mut Look) -> u32;
    pub fn covetrivet_rounds(caller: &mut Handle, id: u32, rounds: &mut u8) -> u32;
    pub fn covetrivet_reply(caller: &mut Handle, root: u32, from: u32, id: &mut u32) -> u32;
    pub fn covetrivet_next_error(caller: &mut Handle, from: u32, id: &mut u32) -> u32;
    pub fn covetrivet_family(caller: &mut Handle, root: u32, from: u32, look: &mut Look) -> u32;
    pub fn covetrivet_collect(caller: &mut Handle, id: u32, element: &mut Element) -> u32;
    pub fn covetrivet_collect_next(caller: &mut Handle, root: u32, element: &mut Element) -> u32;
    pub fn covetrivet_requeue(caller: &mut Handle, id: u32, round: &mut u8) -> u32;
    pub fn covetrivet_kill(caller: &mut Handle, id: u32, aborted: &mut u8) -> u32;
    pub fn covetrivet_cancel(caller: &mut Handle, root: u32, killed: &mut u32) -> u32;
    pub fn covetrivet_release(caller: &mut Handle, id: u32, released: &mut Released) -> u32;

    pub fn covetrivet_claim(caller: &mut Handle, stage: u8, work: &mut Work) -> u32;
    pub fn covetrivet_claim_next(caller: &mut Handle, stage: u8, work: &mut Work) -> u32;
    pub fn covetrivet_claim_id(caller: &mut Handle, id: u32, work: &mut Work) -> u32;
    pub fn covetrivet_abort(caller: &mut Handle) -> u32;
    // (a slice crosses as its pointer, which is never null, and its length)
    pub fn covetrivet_commit(caller: &mut Handle, drafts: *const Draft, count: usize, born: &mut Born) -> u32;

    pub fn covetrivet_number(caller: &mut Handle, number: &mut u16) -> u32;
    pub fn covetrivet_room(caller: &mut Handle, room: &mut Room) -> u32;
    pub fn covetrivet_has_open(caller: &mut Handle, is_open: &mut u8) -> u32;
    pub fn covetrivet_low(caller: &mut Handle, stage: u8, part: u16, low: &mut u16) -> u32;
    pub fn covetrivet_seen_blocks(caller: &mut Handle, blocks: &mut u16) -> u32;
    pub fn covetrivet_meet(first: &mut Handle, second: &mut Handle) -> u32;
}

/// The codes of answers that aren't errors here.
pub const OK: u32 = 0;
pub const IDLE: u32 = 16;
pub const NONE: u32 = 18;

#[cfg(test)]
mod tests {
    use super::*;
    use std::mem::size_of;

    #[test]
    fn shapes_are_the_librarys() {
        let here = [
            size_of::<Limits>(),
            size_of::<Element>(),
            size_of::<Work>(),
            size_of::<Status>(),
            size_of::<Look>(),
            size_of::<Draft>(),
            size_of::<Born>(),
            size_of::<Released>(),
            size_of::<Room>(),
            size_of::<Counts>(),
            size_of::<Moved>(),
            size_of::<Handle>(),
            size_of::<Handle>(),
        ];
        // SAFETY: it takes a number.
        let there = (0..14).map(|of| unsafe { covetrivet_size(of) });
        assert!(there.eq(here.into_iter().chain([0])));
    }
}
