//! A manager, and the callers that are at home.

use crate::caller::Caller;
use crate::error::{told, Error};
use crate::sys::{self, Handle};
use crate::types::{Account, Counts, Limits, Moved};
use std::sync::{Arc, Mutex, MutexGuard, PoisonError};

/// What a manager shares with its callers, so that those which are dropped come home.
pub(crate) type Home = Arc<Mutex<Handle>>;

pub(crate) fn lock(home: &Home) -> MutexGuard<'_, Handle> {
    // (no call of the library unwinds, so a poisoned lock says nothing of the handle)
    home.lock().unwrap_or_else(PoisonError::into_inner)
}

/// A manager. It may be shared by threads: its own calls take a lock, those of its [`Caller`]s take none.
///
/// Dropped, it is given up with the callers at home; open ones go on.
pub struct Manager {
    home: Home,
}

impl Manager {
    /// A manager with these limits, all of whose callers are at home. `BadLimits`, `NoMemory`.
    pub fn new(limits: Limits) -> Result<Manager, Error> {
        let mut handle = Handle::closed();
        // SAFETY: both are references, and the handle is closed.
        told(unsafe { sys::covetrivet_make(&limits, &mut handle) }, ())?;
        Ok(Manager {
            home: Arc::new(Mutex::new(handle)),
        })
    }

    fn handle(&self) -> MutexGuard<'_, Handle> {
        lock(&self.home)
    }

    /// Opens the caller at home with the least number. `NoPart`, `NoMemory`.
    pub fn open(&self) -> Result<Caller, Error> {
        let mut caller = Handle::closed();
        // SAFETY: the lock is held, and the caller's handle is closed.
        told(unsafe { sys::covetrivet_open(&mut self.handle(), &mut caller) }, ())?;
        Ok(Caller::of(caller, Arc::clone(&self.home), self.limits().units))
    }

    /// Opens the caller with this number. What it held before a rollover it has in hand: see
    /// [`Caller::in_hand`]. `NoPart` where it isn't at home, `NoMemory`.
    pub fn open_number(&self, number: u16) -> Result<Caller, Error> {
        let mut caller = Handle::closed();
        // SAFETY: as above.
        told(unsafe { sys::covetrivet_open_number(&mut self.handle(), number, &mut caller) }, ())?;
        Ok(Caller::of(caller, Arc::clone(&self.home), self.limits().units))
    }

    /// Takes a caller home again, in any order. It comes back where it is of another manager (`OtherManager`).
    // (a caller fills two lines of the cache, and seldom comes back)
    #[allow(clippy::result_large_err)]
    pub fn hand_back(&self, mut caller: Caller) -> Result<(), (Caller, Error)> {
        if !Arc::ptr_eq(&caller.home, &self.home) {
            return Err((caller, Error::OtherManager));
        }
        // SAFETY: the caller is of this manager, as is asked for.
        let code = unsafe { sys::covetrivet_hand_back(&mut self.handle(), &mut caller.handle) };
        told(code, ()).map_err(|error| (caller, error))
    }

    /// The limits that the manager was made with.
    pub fn limits(&self) -> Limits {
        let mut limits = Limits { parts: 0, rows: 0, units: 0, spare: 0, attempts: 0 };
        // SAFETY: the lock is held; a manager's handle is open, so it answers 0.
        unsafe { sys::covetrivet_get_limits(&mut self.handle(), &mut limits) };
        limits
    }

    /// How many elements it has room for, at most 10,240.
    pub fn capacity(&self) -> u32 {
        let mut capacity = 0;
        // SAFETY: as above.
        unsafe { sys::covetrivet_capacity(&mut self.handle(), &mut capacity) };
        capacity
    }

    /// How many elements there are of each kind of status, in all and by stage, after one history that all callers have
    /// then seen. Replies that were collected are killed. `NotAll` unless all are at home.
    pub fn account(&self) -> Result<Account, Error> {
        let mut handle = self.handle();
        let mut account = Account::default();
        let places = std::iter::once(&mut account.total).chain(&mut account.stages);
        for (stage, counts) in (0u8..).zip(places) {
            let mut found = Counts::default();
            // SAFETY: the lock is held, through all stages, so nothing happens between them.
            told(unsafe { sys::covetrivet_account(&mut handle, stage, &mut found) }, ())?;
            *counts = found;
        }
        Ok(account)
    }

    /// All callers look until all have seen one history. `NotAll` unless all are at home.
    pub fn gather(&self) -> Result<(), Error> {
        // SAFETY: the lock is held.
        told(unsafe { sys::covetrivet_gather(&mut self.handle()) }, ())
    }

    /// What waits, is parked or is held, replies too, goes on in a new manager with these limits, each element once, and
    /// nothing else does. This is the new manager then, all of whose callers are at home. What was carried over, by
    /// ascending ids: their order, bodies, stages, attempts and rounds are as they were, and their ids are not. What a
    /// caller held, the caller of the same number has in hand, in the same attempt; no other has a unit open.
    ///
    /// Where an element's root had been consumed, its new root is one that was made and consumed in the rollover. It
    /// took a row and a unit of work, as each such one, and the account counts them.
    ///
    /// `NotAll`, `BadLimits` (also where `attempts` differs, or there is no caller of a number that has a unit open),
    /// `Full`, `NoMemory`, where the old one stands as it did.
    pub fn roll_over(&self, limits: Limits) -> Result<Vec<Moved>, Error> {
        let mut handle = self.handle();
        let mut count = 0;
        // SAFETY: the lock is held.
        told(unsafe { sys::covetrivet_roll_over(&mut handle, &limits, &mut count) }, ())?;
        let mut all = vec![Moved::default(); count];
        for (place, moved) in all.iter_mut().enumerate() {
            // SAFETY: as above; the place is one of those.
            told(unsafe { sys::covetrivet_moved_at(&mut handle, place, moved) }, ())?;
        }
        Ok(all)
    }

    /// A rollover into a manager with the same limits.
    pub fn succeed(&self) -> Result<Vec<Moved>, Error> {
        self.roll_over(self.limits())
    }
}

impl Drop for Manager {
    fn drop(&mut self) {
        // SAFETY: the lock is held.
        unsafe { sys::covetrivet_give_up(&mut self.handle()) };
    }
}
