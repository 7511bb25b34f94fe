//! Lines that wait: they are parked here, and tried again.
use crate::arrivals::Arrivals;
use crate::life::{Going, Phase};
use crate::lines::{Name, Tag, Verb};
use crate::routing::{Asked, By, Whose};
use crate::server::Server;
use crate::slab::Id;
use crate::timers::Timer;
use crate::waits::{For, State, Wait};
use std::time::Duration;

/// So much later a wait that is over is tried, where the session is just going on in another process.
const SECONDS_TO_LOOK_AGAIN: f64 = 0.1;

impl Server {
    /// A line that waits has come. Where others wait for work of its stage it comes behind them.
    pub fn wait(&mut self, client: Id, asked: Asked, line: &[u8], seconds: u64) {
        let (verb, name, tag) = (asked.verb, asked.name, asked.tag);
        let is_for = self.is_for(verb, name);
        // (a worker with work in hand is told so at once)
        let is_behind =
            matches!(is_for, For::Work(_)) && self.waits.has(is_for) && self.units.get(name).is_none();
        let until = self.now + Duration::from_secs(seconds);
        let line = line.into();
        let id = self.waits.put(Wait { client, verb, name, tag, line, is_for, until, state: State::Parked });
        self.timers.put(until, Timer::Wait(id));
        if let (true, Some(it)) = (tag.is_none(), self.clients.get_mut(client)) {
            // (its next lines come behind this one)
            it.is_parked = true;
        }
        if !is_behind {
            self.try_for(id, is_for);
        }
    }

    fn is_for(&self, verb: Verb, name: Name) -> For {
        match self.names.get(&name) {
            _ if verb == Verb::Receive => For::Replies,
            Some(it) => For::Work(it.stage),
            None => For::AnyWork,
        }
    }

    /// Has a line that is parked performed, because of this.
    fn try_for(&mut self, id: Id, because: For) {
        let Some(it) = self.waits.get_mut(id).filter(|it| it.state == State::Parked) else { return };
        it.state = State::Tried(because);
        let (verb, name, line) = (it.verb, it.name, it.line.clone());
        let (whose, by, tag, since) = (Whose::Wait(id), By::Program, Tag::NONE, self.now);
        self.ask(Asked { whose, by, verb, name, tag, arrivals: Arrivals::NONE, since }, &line);
    }

    fn runs(&self) -> bool {
        matches!(self.going, Going::Runs)
    }

    /// Has these lines tried, where they are parked.
    pub fn try_again(&mut self, them: &[Id]) {
        for id in them {
            let parked = self.waits.get(*id).filter(|it| it.state == State::Parked);
            // (where the session is just going on, all are tried behind that)
            if let (Some(is_for), true) = (parked.map(|it| it.is_for), self.runs()) {
                self.tally.tries += 1;
                self.try_for(*id, is_for);
            }
        }
    }

    fn wake_for(&mut self, it: For) {
        self.try_again(&self.waits.to_try(it));
    }

    /// Something may have come here.
    pub fn wake(&mut self, it: &Arrivals) {
        let is_replies = |it: &For| *it == For::Replies;
        let mut them: Vec<For> = match it.is_anywhere {
            true => self.waits.queues().into_iter().filter(|it| !is_replies(it)).collect(),
            false => it.stages().map(For::Work).collect(),
        };
        if !them.is_empty() && !them.contains(&For::AnyWork) {
            them.push(For::AnyWork);
        }
        if it.has_replies {
            them.push(For::Replies);
        }
        for it in them {
            self.wake_for(it);
        }
    }

    pub fn wake_all(&mut self) {
        self.wake(&Arrivals::ANYTHING);
    }

    /// A line that waits has an answer of the program's.
    pub fn wait_answered(&mut self, id: Id, answer: &[u8]) {
        let Some(it) = self.waits.get_mut(id) else { return };
        let State::Tried(because) = it.state else { return };
        let (is_for, is_nothing) = (it.is_for, it.is_nothing(answer));
        let serves = matches!(self.phase, Phase::Serves);
        if is_nothing && serves && it.until > self.now && self.clients.get(it.client).is_some() {
            it.state = State::Parked;
        } else {
            self.end_wait(id, answer);
        }
        if !is_nothing {
            // (more may wait there)
            self.wake_for(is_for);
        }
        if because != is_for {
            // (the worker has another stage meanwhile: what came was for others)
            self.wake_for(because);
        }
    }

    fn end_wait(&mut self, id: Id, answer: &[u8]) {
        let Some(it) = self.waits.take(id) else { return };
        self.timers.cancel(it.until, Timer::Wait(id));
        self.write(it.client, it.tag, answer);
        if let (true, Some(client)) = (it.tag.is_none(), self.clients.get_mut(it.client)) {
            client.is_parked = false;
        }
        self.answered(it.client);
    }

    /// A line has waited long enough. It is tried once more, and told what that is answered.
    pub fn wait_is_over(&mut self, id: Id) {
        let Some(it) = self.waits.get(id) else { return };
        if !self.runs() {
            self.later(SECONDS_TO_LOOK_AGAIN, Timer::Wait(id));
        } else if it.state == State::Parked {
            self.try_again(&[id]);
        }
    }

    /// A client is gone. Of what it waits for and the program has, the answer is still to be heard. Returns how many
    /// of its lines wait no longer.
    pub fn forget_waits_of(&mut self, client: Id) -> usize {
        let is_parked = |it: &Id| self.waits.get(*it).is_some_and(|it| it.state == State::Parked);
        let them: Vec<Id> = self.waits.of(client).into_iter().filter(is_parked).collect();
        for id in &them {
            if let Some(it) = self.waits.take(*id) {
                self.timers.cancel(it.until, Timer::Wait(*id));
            }
        }
        them.len()
    }

    /// Nobody waits any more, also where a line is tried.
    pub fn forget_all_waits(&mut self) {
        for id in self.waits.ids() {
            if let Some(it) = self.waits.take(id) {
                self.timers.cancel(it.until, Timer::Wait(id));
            }
        }
    }

    /// A client waits no longer.
    pub fn end_waits_of(&mut self, client: Id) {
        for id in self.waits.of(client) {
            let Some(it) = self.waits.get_mut(id) else { continue };
            let was = std::mem::replace(&mut it.until, self.now);
            self.timers.cancel(was, Timer::Wait(id));
            self.wait_is_over(id);
        }
    }
}
