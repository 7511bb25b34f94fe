//! The event loop. Lines of many clients go to the program by turns, and each answer goes to its own client.
use crate::ages::Ages;
use crate::connection::Connection;
use crate::fault::{Fault, Status};
use crate::head::Names;
use crate::http::Request;
use crate::life::{Going, Phase};
use crate::lines::Name;
use crate::listen::{Listeners, Places};
use crate::log::{say, Log};
use crate::node::Node;
use crate::notify;
use crate::options::Options;
use crate::pace::Pace;
use crate::program::Program;
use crate::rights::{Rights, Tokens};
use crate::routing::{Asked, Routing};
use crate::session::Session;
use crate::slab::{Id, Slab};
use crate::sys::{self, Event, Poll, READABLE};
use crate::tally::Tally;
use crate::timers::{Timer, Timers};
use crate::units::Units;
use crate::waits::Waits;
use std::collections::{BTreeSet, VecDeque};
use std::os::fd::{AsRawFd, OwnedFd};
use std::time::{Duration, Instant};

const EVENTS_AT_ONCE: usize = 256;
/// A signal is told by so many bytes.
const SIGNAL_BYTES: usize = 128;

/// What a descriptor is for.
#[derive(Clone, Copy, PartialEq, Eq, Debug)]
pub enum Source {
    Clients,
    Tcp,
    Pages,
    Signals,
    Answers,
    Input,
    Errors,
    Client(Id),
    Page(Id),
}

impl Source {
    const PLAIN: [Source; 7] = [
        Source::Clients,
        Source::Tcp,
        Source::Pages,
        Source::Signals,
        Source::Answers,
        Source::Input,
        Source::Errors,
    ];
    const CLIENT: u64 = 16;
    const PAGE: u64 = 17;

    /// In 64 bits: 8 of the kind, 24 of a place, and 32 of its generation.
    pub fn token(self) -> u64 {
        let of = |kind: u64, id: Id| kind << 56 | u64::from(id.slot) << 32 | u64::from(id.generation);
        match self {
            Source::Client(id) => of(Source::CLIENT, id),
            Source::Page(id) => of(Source::PAGE, id),
            it => of(
                Source::PLAIN.iter().position(|that| *that == it).unwrap_or(0) as u64,
                Id { slot: 0, generation: 0 },
            ),
        }
    }

    fn of(token: u64) -> Source {
        let id = Id { slot: (token >> 32 & 0xFF_FFFF) as u32, generation: token as u32 };
        match token >> 56 {
            Source::CLIENT => Source::Client(id),
            Source::PAGE => Source::Page(id),
            it => Source::PLAIN[it as usize],
        }
    }
}

/// All that a server has. Its acts are in the files of their own.
pub struct Server {
    pub options: Options,
    pub rights: Rights,
    pub tokens: Tokens,
    pub session: Session,
    pub poll: Poll,
    pub signals: OwnedFd,
    pub listeners: Option<Listeners>,
    /// Those that somebody knocks at, in this round.
    pub knocked: Vec<Source>,
    pub program: Program,
    pub going: Going,
    /// Where the program is a node.
    pub node: Option<Node>,
    pub phase: Phase,
    pub fault: Option<Fault>,
    /// Whether the program has answered a client since it began, and how many in a row have ended before
    /// that.
    pub has_answered: bool,
    pub in_vain: u32,
    /// Lines that were lost with the program, until they are answered.
    pub lost: Vec<Asked>,
    pub clients: Slab<Connection>,
    /// Clients that have a line, in the order of their turns; and those that have answers to be written.
    pub ready: VecDeque<Id>,
    pub dirty: Vec<Id>,
    pub routing: Routing,
    pub pace: Pace,
    /// Lines for the program, and how much of them it has.
    pub input: Vec<u8>,
    pub given: usize,
    pub is_blocked: bool,
    pub units: Units,
    pub names: Names,
    pub waits: Waits,
    pub timers: Timers,
    pub is_ticking: bool,
    pub pages: Slab<Request>,
    pub stages_seen: BTreeSet<u16>,
    pub ages: Ages,
    pub tally: Tally,
    pub log: Log,
    pub now: Instant,
}

/// Begins the session, and serves it until it ends. Returns the session's last lines.
pub fn serve(
    options: Options,
    session: Session,
    rights: Rights,
    tokens: Tokens,
    places: Places,
) -> Result<Vec<u8>, Fault> {
    let (program, busy, names) = session.start()?;
    let io = |it: std::io::Error| Fault(Status::NoPlace, it.to_string());
    let (listeners, _places) = places.bind()?;
    let mut it = Server::new(options, session, rights, tokens, (program, names), listeners).map_err(io)?;
    it.begin(&busy).map_err(io)?;
    it.run();
    it.finish()
}

impl Server {
    fn new(
        options: Options,
        session: Session,
        rights: Rights,
        tokens: Tokens,
        (program, names): (Program, Names),
        listeners: Listeners,
    ) -> std::io::Result<Server> {
        let (poll, signals) = (Poll::new()?, sys::signals()?);
        let tally = Tally::new(rights.0.as_ref().map_or(0, Vec::len));
        let now = Instant::now();
        let pace = Pace::new(program.id(), now);
        let node = options.is_node.then(Node::new);
        Ok(Server {
            options,
            rights,
            tokens,
            session,
            poll,
            signals,
            listeners: Some(listeners),
            knocked: Vec::new(),
            program,
            going: if node.is_some() { Going::Follows } else { Going::Runs },
            node,
            phase: Phase::Serves,
            fault: None,
            has_answered: true,
            in_vain: 0,
            lost: Vec::new(),
            clients: Slab::new(),
            ready: VecDeque::new(),
            dirty: Vec::new(),
            routing: Routing::default(),
            pace,
            input: Vec::new(),
            given: 0,
            is_blocked: false,
            units: Units::default(),
            names,
            waits: Waits::default(),
            timers: Timers::default(),
            is_ticking: false,
            pages: Slab::new(),
            stages_seen: BTreeSet::new(),
            ages: Ages::default(),
            tally,
            log: Log::new(),
            now,
        })
    }

    fn begin(&mut self, busy: &[Name]) -> std::io::Result<()> {
        self.poll.add(self.signals.as_raw_fd(), READABLE, Source::Signals.token())?;
        if let Some(it) = &self.listeners {
            let all = [
                (Some(&it.clients), Source::Clients),
                (it.tcp.as_ref(), Source::Tcp),
                (it.pages.as_ref(), Source::Pages),
            ];
            for (fd, source) in all.into_iter().filter_map(|it| Some((it.0?, it.1))) {
                self.poll.add(fd.as_raw_fd(), READABLE, source.token())?;
            }
        }
        self.watch_program();
        for name in busy {
            let serial = self.units.begin(*name, None, self.now, true);
            self.orphaned(*name, serial);
        }
        say(&format!("serves on {}", self.options.socket));
        notify::tell("READY=1");
        Ok(())
    }

    fn run(&mut self) {
        let mut events = [Event::default(); EVENTS_AT_ONCE];
        while !matches!(self.phase, Phase::Over) {
            let may_hand = !self.ready.is_empty() && self.has_room();
            let many = self.poll.wait(&mut events, if may_hand { 0 } else { self.milliseconds_left() });
            self.now = Instant::now();
            for it in &events[..many] {
                self.heard(Source::of(it.token), it.events);
            }
            while let Some(it) = self.timers.due(self.now) {
                self.time_has_come(it);
            }
            self.take_turns();
            self.hand_on();
            while let Some(id) = self.dirty.pop() {
                self.flush(id);
            }
            // (those that have ended in this round make room for others)
            for it in std::mem::take(&mut self.knocked) {
                self.accept(it);
            }
            self.look_at_end();
        }
    }

    fn milliseconds_left(&self) -> i32 {
        let left = self.timers.next().map(|it| it.saturating_duration_since(Instant::now()));
        left.map_or(-1, |it| i32::try_from(it.as_micros().div_ceil(1000)).unwrap_or(i32::MAX))
    }

    fn heard(&mut self, from: Source, events: u32) {
        match from {
            Source::Clients | Source::Tcp | Source::Pages => self.knocked.push(from),
            Source::Signals => {
                let _ = sys::read_some(self.signals.as_raw_fd(), &mut [0; SIGNAL_BYTES]);
                self.drain();
            }
            Source::Answers => self.answers_come(),
            Source::Input => self.hand_on(),
            Source::Errors => {
                if !self.program.pass_on_errors() {
                    self.poll.remove(self.program.errors);
                }
            }
            Source::Client(id) => self.client_heard(id, events),
            Source::Page(id) => self.page_heard(id),
        }
    }

    fn time_has_come(&mut self, it: Timer) {
        match it {
            Timer::Wait(id) => self.wait_is_over(id),
            Timer::Orphan(name, serial) => self.abort_orphan(name, serial),
            Timer::Accept => self.take_connections(),
            Timer::Tick => self.tick(),
            Timer::Page(id) => self.page_has_had_its_time(id),
            Timer::Token(id) => self.token_is_wanted(id),
            Timer::Restart => self.start_again(),
            Timer::End => self.end_has_come(),
        }
    }

    /// Has this done so much later.
    pub fn later(&mut self, seconds: f64, it: Timer) -> Instant {
        let at = self.now + Duration::from_secs_f64(seconds);
        self.timers.put(at, it);
        at
    }

    /// Has what is there but not read looked at each second.
    pub fn ticks(&mut self) {
        if !self.is_ticking {
            self.is_ticking = true;
            self.later(1.0, Timer::Tick);
        }
    }
}

#[cfg(test)]
mod tests {
    use super::*;

    #[test]
    fn tokens_name_their_sources() {
        let id = Id { slot: 999, generation: u32::MAX };
        for it in Source::PLAIN.into_iter().chain([Source::Client(id), Source::Page(id)]) {
            assert_eq!(Source::of(it.token()), it);
        }
    }
}
