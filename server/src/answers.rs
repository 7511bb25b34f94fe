//! What the program answers, and what comes of it.
use crate::arrivals::Arrivals;
use crate::head::Takes;
use crate::life::{Going, Phase};
use crate::lines::{refused, Name, Tag, Verb};
use crate::program::Come;
use crate::routing::{Asked, By, Heard, Whose};
use crate::said::is_own;
use crate::server::Server;
use crate::slab::Id;
use crate::sys::find;
use crate::timers::Timer;
use crate::turns::DENIED;
use crate::units::UNKNOWN;

/// A line that isn't answered names the worker: it may end the unit, and begin another. So its abort comes
/// later.
const SECONDS_TO_LOOK_AGAIN: f64 = 0.01;

impl Server {
    pub fn answers_come(&mut self) {
        if let Come::End = self.program.read() {
            return self.program_ended();
        }
        if !matches!(self.going, Going::Runs | Going::Follows) {
            return self.start_goes_on();
        }
        let before = self.routing.of_clients();
        let rest = std::mem::take(&mut self.program.rest);
        let mut at = 0;
        let mut is_wrong = false;
        while let (Some(length), false) = (find(&rest[at..], b'\n'), is_wrong) {
            is_wrong = !self.line_comes(&rest[at..at + length]);
            at += length + 1;
        }
        self.program.rest = rest;
        self.program.rest.drain(..at);
        if self.node.is_none() {
            // (a node waits for its log, and a long window is one record there)
            self.pace.note(before.saturating_sub(self.routing.of_clients()), self.program.id(), self.now);
        }
        if is_wrong {
            // A program that answers more than it is asked: the next answers would be given to wrong clients.
            self.program.kill();
            self.program_ended();
        }
    }

    /// False where the program may not say this.
    fn line_comes(&mut self, line: &[u8]) -> bool {
        if self.node.is_some() && is_own(line) {
            self.node_says(line)
        } else {
            self.answer_comes(line)
        }
    }

    /// False where nothing was asked.
    fn answer_comes(&mut self, answer: &[u8]) -> bool {
        self.has_answered = true;
        match self.routing.take(answer) {
            Heard::Nobody => return false,
            Heard::Whole(asked) => self.tell(&asked, answer),
            Heard::Part(Whose::Client(to), tag) => self.write(to, tag, answer),
            Heard::Part(..) => (),
        }
        while let Some(asked) = self.routing.own() {
            self.tell_own(&asked);
        }
        true
    }

    /// Tells what the server itself answers.
    pub fn tell_own(&mut self, asked: &Asked) {
        match asked.by {
            By::Denial => self.tell(asked, DENIED),
            By::Token => self.tell(asked, format!("token {}", asked.name).as_bytes()),
            By::Tag | By::Program => {
                // (an empty line, of which only the tag comes back, is no answer that is counted)
                if let Whose::Client(to) = asked.whose {
                    self.write(to, asked.tag, b"");
                    self.answered(to);
                }
            }
        }
    }

    /// Tells an answer to whom it belongs, and takes note of it.
    pub fn tell(&mut self, asked: &Asked, answer: &[u8]) {
        let took = self.now.saturating_duration_since(asked.since);
        self.tally.hear(asked.verb, asked.name, answer, took);
        let owner = self.owner_of(asked);
        match asked.whose {
            Whose::Wait(id) => self.wait_answered(id, answer),
            Whose::Client(to) => {
                self.write(to, asked.tag, answer);
                self.answered(to);
            }
            Whose::Orphan => self.tally.aborted += u64::from(answer != UNKNOWN),
            Whose::Page(id, which) => self.page_answered(id, which, answer),
        }
        if answer != UNKNOWN && asked.by == By::Program {
            self.hear(asked, owner, answer);
        }
    }

    /// The client whose line this is.
    pub fn owner_of(&self, asked: &Asked) -> Option<Id> {
        match asked.whose {
            Whose::Client(id) => Some(id),
            Whose::Wait(id) => self.waits.get(id).map(|it| it.client),
            Whose::Orphan | Whose::Page(..) => None,
        }
    }

    /// A client has one of its answers.
    pub fn answered(&mut self, to: Id) {
        if let Some(it) = self.clients.get_mut(to) {
            it.in_flight -= 1;
            self.settle(to);
        }
    }

    /// Takes note of what an answer says of units, workers and arrivals.
    fn hear(&mut self, asked: &Asked, owner: Option<Id>, answer: &[u8]) {
        if self.options.metrics.is_some() {
            self.ages.hear(asked.verb, answer, self.now);
        }
        if asked.verb.is_about_units() {
            if let Some(serial) = self.units.hear(asked, owner, answer, self.now) {
                if owner.is_none_or(|it| self.clients.get(it).is_none()) {
                    self.orphaned(asked.name, serial);
                }
            }
        }
        let is_refused = refused(answer).is_some();
        if !is_refused && matches!(asked.verb, Verb::Worker | Verb::Leave) {
            self.name_changed(asked);
        }
        if !asked.arrivals.is_none() && !is_refused {
            self.wake(&asked.arrivals);
        }
    }

    /// A worker has come, or is gone. (Of one that has come the line alone tells the stage.)
    fn name_changed(&mut self, asked: &Asked) {
        self.names.remove(&asked.name);
        let them = match asked.arrivals.stages().next() {
            Some(stage) if asked.verb == Verb::Worker => {
                self.names.insert(asked.name, Takes { stage, outputs: Vec::new() });
                self.waits.moved(asked.name, stage)
            }
            _ => self.waits.of_name(asked.name),
        };
        self.try_again(&them);
    }

    // ---- units of clients that are gone

    /// The client of a unit is gone.
    pub fn orphaned(&mut self, name: Name, serial: u64) {
        if let Some(seconds) = self.options.orphans {
            self.later(seconds, Timer::Orphan(name, serial));
        }
    }

    pub fn abort_orphan(&mut self, name: Name, serial: u64) {
        let serves = matches!((&self.phase, &self.going), (Phase::Serves, Going::Runs));
        // (where the session is just going on, each such unit has its time anew behind that)
        if !serves || !self.units.is_open(name, serial) {
            return;
        }
        if self.routing.has_name(name) {
            self.later(SECONDS_TO_LOOK_AGAIN, Timer::Orphan(name, serial));
            return;
        }
        let line = format!("abort {name}");
        let (whose, by, verb, tag, since) = (Whose::Orphan, By::Program, Verb::Abort, Tag::NONE, self.now);
        let arrivals = Arrivals::ANYTHING;
        self.ask(Asked { whose, by, verb, name, tag, arrivals, since }, line.as_bytes());
    }
}
