//! The end of the program, of the server, and how a session goes on in another process.
use crate::fault::Fault;
use crate::lines::Name;
use crate::notify;
use crate::pace::Pace;
use crate::program::{say_again, Program};
use crate::routing::{Asked, By, Whose};
use crate::server::{Server, Source};
use crate::session::{in_hand, no_journal, recovered, Session, ASKS_HOLDS, BETWEEN_TRIES, SECONDS_TO_LET_GO};
use crate::slab::Id;
use crate::sys::READABLE;
use crate::tally::LetGo;
use crate::timers::Timer;
use crate::units::UNKNOWN;
use std::os::fd::AsRawFd;
use std::time::{Duration, Instant};

const SECONDS_TO_ANSWER: f64 = 10.0;
const SECONDS_TO_READ: f64 = 5.0;
/// Where so many programs in a row have ended before they answered anything, the session is lost.
const RESTARTS_IN_VAIN: u32 = 3;

/// What the server is about.
pub enum Phase {
    Serves,
    /// It takes no more lines, and waits for answers.
    Drains,
    /// It waits until clients have read their last lines.
    Tells,
    Over,
}

/// What the program is about.
pub enum Going {
    Runs,
    /// It is a node of a cluster, and another one leads.
    Follows,
    /// It has ended, and the journal isn't free yet, for which it is waited until then.
    Waits(Instant),
    Recovers,
    /// It tells who has units open.
    TellsUnits,
}

impl Server {
    pub fn watch_program(&mut self) {
        let it = &self.program;
        for (fd, events, source) in [
            (it.output, READABLE, Source::Answers),
            (it.input, 0, Source::Input),
            (it.errors, READABLE, Source::Errors),
        ] {
            let _ = self.poll.add(fd, events, source.token());
        }
        self.is_blocked = false;
    }

    pub fn forget_program(&mut self) {
        for it in [self.program.input, self.program.output, self.program.errors] {
            self.poll.remove(it);
        }
    }

    /// The program answers nothing any more.
    pub fn program_ended(&mut self) {
        self.forget_program();
        let (why, _) = self.program.ended();
        let was_running = matches!(self.going, Going::Runs);
        self.in_vain = if was_running && self.has_answered { 0 } else { self.in_vain + 1 };
        if was_running {
            let (cut, lost) = self.routing.lose();
            self.lost = lost;
            (self.input, self.given) = (Vec::new(), 0);
            if let Some(Whose::Client(id)) = cut.map(|it| it.whose) {
                self.dismiss(id, Some("the session was lost in the midst of this answer, and goes on"));
            }
        }
        let may_go_on = !was_running || matches!(self.phase, Phase::Serves);
        let journal = self.session.journal.clone().filter(|_| may_go_on && self.in_vain < RESTARTS_IN_VAIN);
        match (journal, self.program.fault_of_journal().filter(|_| !was_running)) {
            (Some(path), Some(why)) => self.lose(no_journal(&path, &why)),
            (Some(_), None) => {
                say_again();
                self.going = Going::Waits(self.now + Duration::from_secs(SECONDS_TO_LET_GO));
                self.start_again();
            }
            (None, _) => self.lose(Fault::lost(&why)),
        }
    }

    /// Starts the program again, once the journal is free.
    pub fn start_again(&mut self) {
        let (Going::Waits(until), Some(journal)) = (&self.going, &self.session.journal) else { return };
        if !Session::is_free(journal) && self.now < *until {
            self.later(BETWEEN_TRIES.as_secs_f64(), Timer::Restart);
            return;
        }
        match Program::start(&self.session.words_with(journal)) {
            Ok(it) => {
                it.unblock();
                self.program = it;
                self.going = Going::Recovers;
                self.watch_program();
            }
            Err(why) => self.lose(why),
        }
    }

    /// The program that goes on has said something.
    pub fn start_goes_on(&mut self) {
        while let Some(line) = self.program.next_line() {
            match self.going {
                Going::Recovers => match recovered(&line) {
                    Ok(_) => {
                        self.going = Going::TellsUnits;
                        self.input.extend_from_slice(format!("{ASKS_HOLDS}\n").as_bytes());
                        self.hand_on();
                    }
                    Err(why) => return self.lose(why),
                },
                _ => match in_hand(&line) {
                    Some(names) => return self.go_on(&names),
                    None => {
                        self.program.kill();
                        return self.program_ended();
                    }
                },
            }
        }
    }

    /// The session goes on. Lines that were lost are answered by `unknown`.
    fn go_on(&mut self, names: &[Name]) {
        self.going = Going::Runs;
        self.tally.restarts += 1;
        self.has_answered = false;
        self.pace = Pace::new(self.program.id(), self.now);
        let lost = std::mem::take(&mut self.lost);
        let lost: Vec<(Asked, Option<Id>)> =
            lost.into_iter().map(|it| (self.owner_of(&it), it)).map(|(a, b)| (b, a)).collect();
        self.units.settle(names, &lost, self.now);
        let is_gone = |it: Option<Id>| it.is_none_or(|it| self.clients.get(it).is_none());
        let open = self.units.iter().filter(|it| is_gone(it.1.owner)).map(|it| (*it.0, it.1.serial));
        for (name, serial) in open.collect::<Vec<_>>() {
            self.orphaned(name, serial);
        }
        for (it, _) in lost {
            match it.by {
                By::Program => self.tell(&it, UNKNOWN),
                _ => self.tell_own(&it),
            }
        }
        self.wake_all();
        for id in self.clients.ids() {
            self.settle(id);
        }
    }

    /// Takes no more lines and connections.
    pub fn drain(&mut self) {
        if matches!(self.phase, Phase::Serves) {
            self.phase = Phase::Drains;
            notify::tell("STOPPING=1");
            self.later(SECONDS_TO_ANSWER, Timer::End);
            self.ready.clear();
            self.stop_listening();
        }
    }

    fn stop_listening(&mut self) {
        if let Some(it) = self.listeners.take() {
            for it in [Some(it.clients), it.tcp, it.pages].into_iter().flatten() {
                self.poll.remove(it.as_raw_fd());
            }
        }
    }

    /// The session can't go on.
    pub fn lose(&mut self, why: Fault) {
        self.going = Going::Runs;
        self.fault = Some(why);
        self.lost.clear();
        self.routing.lose();
        self.tell_end();
    }

    /// Tells each client that this is the end.
    fn tell_end(&mut self) {
        self.phase = Phase::Tells;
        self.stop_listening();
        self.later(SECONDS_TO_READ, Timer::End);
        let why = match &self.fault {
            Some(it) => Fault::lost(it.1.trim_start_matches("the session is lost: ")).1,
            None => "the server ends".into(),
        };
        for id in self.clients.ids() {
            self.dismiss(id, Some(&why));
        }
        while let Some(id) = self.dirty.pop() {
            self.flush(id);
        }
    }

    /// Goes on to the next phase of the end, where that has come.
    pub fn look_at_end(&mut self) {
        if matches!(self.phase, Phase::Drains) && self.routing.is_empty() && self.lost.is_empty() {
            self.tell_end();
        }
        if matches!(self.phase, Phase::Tells) && self.clients.is_empty() {
            self.phase = Phase::Over;
        }
    }

    /// What is waited for at the end doesn't come.
    pub fn end_has_come(&mut self) {
        match self.phase {
            Phase::Drains => {
                self.program.kill();
                self.in_vain = RESTARTS_IN_VAIN;
                self.program_ended();
            }
            Phase::Tells => {
                for id in self.clients.ids() {
                    self.let_go(id, LetGo::Slow);
                }
                self.phase = Phase::Over;
            }
            Phase::Serves | Phase::Over => (),
        }
    }

    /// Ends the session in order, and returns its last lines.
    pub fn finish(mut self) -> Result<Vec<u8>, Fault> {
        if let Some(why) = self.fault.take() {
            if self.node.is_some() {
                // (it leaves its log)
                self.program.close_input();
                self.program.ended();
            }
            return Err(why);
        }
        let finals = self.program.finals();
        match self.program.ended() {
            // (a node has none)
            (_, true) if self.node.is_some() => Ok(Vec::new()),
            (_, true) => Ok(finals),
            (why, false) => Err(Fault::lost(&why)),
        }
    }
}
