//! Clients that come and go.
use crate::connection::{Came, Connection, Flushed, Reading};
use crate::life::Phase;
use crate::lines::Tag;
use crate::rights::Client;
use crate::server::{Server, Source};
use crate::slab::Id;
use crate::sys::{self, FAILED, HUNG_UP, READABLE, WRITABLE};
use crate::tally::LetGo;
use crate::timers::Timer;
use std::io::ErrorKind;
use std::os::fd::{AsRawFd, OwnedFd};

const ACCEPTED_AT_ONCE: usize = 16;
/// Where the system can't open more files, so many seconds pass before the next try.
const SECONDS_TO_REST: f64 = 1.0;
const SECONDS_TO_GIVE_A_TOKEN: f64 = 10.0;
/// A client that has had more lines than it was answered for so long is told of, and again so much later.
const SECONDS_OF_A_FLOOD: u32 = 10;
const SECONDS_TO_NEXT_FLOOD: u32 = 600;

impl Server {
    pub fn accept(&mut self, at: Source) {
        let Some(listeners) = &self.listeners else { return };
        let listener = match at {
            Source::Tcp => listeners.tcp.as_ref(),
            Source::Pages => listeners.pages.as_ref(),
            _ => Some(&listeners.clients),
        };
        let Some(listener) = listener.map(AsRawFd::as_raw_fd) else { return };
        for _ in 0..ACCEPTED_AT_ONCE {
            match sys::accept(listener) {
                Ok(it) if at == Source::Pages => self.page_asked(it),
                Ok(it) => self.joined(it, at == Source::Tcp),
                Err(it) if matches!(it.kind(), ErrorKind::WouldBlock | ErrorKind::ConnectionAborted) => {
                    return
                }
                Err(_) => {
                    self.poll.change(listener, 0, at.token());
                    self.later(SECONDS_TO_REST, Timer::Accept);
                    return;
                }
            }
        }
    }

    /// Takes connections again.
    pub fn take_connections(&mut self) {
        let Some(it) = &self.listeners else { return };
        let all = [
            (Some(&it.clients), Source::Clients),
            (it.tcp.as_ref(), Source::Tcp),
            (it.pages.as_ref(), Source::Pages),
        ];
        for (fd, source) in all {
            if let Some(it) = fd {
                self.poll.change(it.as_raw_fd(), READABLE, source.token());
            }
        }
    }

    fn joined(&mut self, fd: OwnedFd, is_over_tcp: bool) {
        self.tally.connected += 1;
        let (number, many) = (self.tally.connected, self.clients.len());
        if let Some(said) = self.follows() {
            let _ = sys::write_some(fd.as_raw_fd(), format!("covetrivet: {said}\n").as_bytes());
            return;
        }
        let who = who_is(&fd, is_over_tcp);
        let own = self.rights.of(&who);
        // (one that has no right may yet show a token)
        let is_denied = own.as_ref().is_some_and(Vec::is_empty) && self.tokens.is_empty();
        let refused = if many >= self.options.limits.connections {
            let said = format!("{many} connections are open, which is all there may be");
            Some((LetGo::Connections, said))
        } else {
            is_denied.then(|| (LetGo::Denied, "no right is of this client".into()))
        };
        if let Some((why, said)) = refused {
            self.tally.lets_go(why);
            self.log.write(&format!("client {number} ({who}) is refused: {said}"));
            let _ = sys::write_some(fd.as_raw_fd(), format!("covetrivet: {said}\n").as_bytes());
            return;
        }
        if is_over_tcp {
            sys::keep_alive(fd.as_raw_fd());
        }
        let is_stranger = who == Client::Stranger;
        let id = self.clients.put(Connection::new(fd, number, who, own, is_over_tcp, self.now));
        if let Some(it) = self.clients.get(id) {
            let _ = self.poll.add(it.fd(), it.events(), Source::Client(id).token());
        }
        if is_stranger {
            self.later(SECONDS_TO_GIVE_A_TOKEN, Timer::Token(id));
        }
    }

    /// A stranger has had its time.
    pub fn token_is_wanted(&mut self, id: Id) {
        if self.clients.get(id).is_some_and(|it| it.who == Client::Stranger) {
            self.let_go(id, LetGo::Token);
        }
    }

    pub fn client_heard(&mut self, id: Id, events: u32) {
        let Some(it) = self.clients.get(id) else { return };
        if it.wants_out() && events & (WRITABLE | HUNG_UP | FAILED) > 0 {
            self.flush(id);
        }
        let Some(it) = self.clients.get(id) else { return };
        if events & FAILED > 0 {
            self.left(id);
        } else if events & HUNG_UP > 0 {
            self.hung_up(id);
        } else if events & READABLE > 0 && it.reading == Reading::Open {
            self.read(id);
        }
    }

    /// Nobody reads its answers any more, and it isn't watched any more. What it has sent may still be performed,
    /// until an answer can't be written; not so what it waits for.
    fn hung_up(&mut self, id: Id) {
        let waited = self.forget_waits_of(id);
        let Some(it) = self.clients.get_mut(id) else { return };
        it.is_hung_up = true;
        it.in_flight -= waited;
        self.poll.remove(it.fd());
        if it.is_closing || it.is_parked {
            return self.left(id);
        }
        self.settle(id);
    }

    fn read(&mut self, id: Id) {
        let serves = matches!(self.phase, Phase::Serves);
        let Some(it) = self.clients.get_mut(id) else { return };
        if !serves || it.is_closing || it.has_line() {
            // (it has lines that wait, so it is read no more until they are handed over)
            it.reading = Reading::Paused;
            self.watch(id);
            return self.ticks();
        }
        match it.read() {
            Came::Nothing => return,
            Came::Lost => return self.left(id),
            Came::Some(many) => self.tally.bytes_in += many as u64,
            Came::End => {
                let waits = it.is_over_tcp;
                self.watch(id);
                if waits {
                    self.end_waits_of(id);
                }
            }
        }
        self.settle(id);
    }

    fn watch(&self, id: Id) {
        if let Some(it) = self.clients.get(id) {
            self.poll.change(it.fd(), it.events(), Source::Client(id).token());
        }
    }

    /// Has a client stand in the queue where it has a line that may be handed over. Else reads on, or is
    /// done.
    pub fn settle(&mut self, id: Id) {
        let serves = matches!(self.phase, Phase::Serves);
        let Some(it) = self.clients.get_mut(id) else { return };
        if it.is_ready || it.is_closing || !serves {
            return;
        }
        if it.has_line() {
            if it.may_hand(&self.options.limits) {
                it.is_ready = true;
                self.ready.push_back(id);
            }
            return;
        }
        it.shorten();
        match it.reading {
            Reading::Open | Reading::Paused if it.is_hung_up => {
                it.reading = Reading::Open;
                self.read(id);
            }
            Reading::Open => (),
            Reading::Paused => {
                it.reading = Reading::Open;
                self.watch(id);
            }
            Reading::Over if it.in_flight == 0 => {
                // A line without an end may be the beginning of one that a client was ended in.
                let torn = "the last line has no end, and was not performed";
                let is_torn = it.has_rest();
                self.dismiss(id, is_torn.then_some(torn));
            }
            Reading::Over => (),
        }
    }

    /// Has an answer written.
    pub fn write(&mut self, to: Id, tag: Tag, answer: &[u8]) {
        let most = self.options.limits.unread;
        if self.clients.get(to).is_some_and(|it| it.unread() > most) {
            self.flush(to);
            if self.clients.get(to).is_some_and(|it| it.unread() > most && !it.is_closing) {
                return self.let_go(to, LetGo::Unread);
            }
        }
        let Some(it) = self.clients.get_mut(to).filter(|it| !it.is_closing) else { return };
        it.put(tag, answer);
        self.is_dirty(to);
    }

    fn is_dirty(&mut self, id: Id) {
        let Some(it) = self.clients.get_mut(id) else { return };
        if !it.is_dirty {
            it.is_dirty = true;
            self.dirty.push(id);
        }
    }

    pub fn flush(&mut self, id: Id) {
        let Some(it) = self.clients.get_mut(id) else { return };
        it.is_dirty = false;
        let (was_behind, wanted_out, before) = (it.is_behind(), it.wants_out(), it.written());
        let flushed = it.flush();
        self.tally.bytes_out += it.written() - before;
        let (waits, is_closing) = (it.wants_out(), it.is_closing);
        if flushed == Flushed::Lost || flushed == Flushed::All && is_closing {
            return self.left(id);
        }
        if waits != wanted_out {
            self.watch(id);
        }
        if waits {
            self.ticks();
        }
        if was_behind {
            self.settle(id);
        }
    }

    /// Closes a connection once all answers are read. Where there is a reason it is the last line.
    pub fn dismiss(&mut self, id: Id, why: Option<&str>) {
        let Some(it) = self.clients.get_mut(id).filter(|it| !it.is_closing) else { return };
        if let Some(why) = why {
            // (what a lost session has said may be of any signs)
            let words: Vec<&str> = why.split_whitespace().collect();
            let ascii = words.join(" ").replace(|it: char| !it.is_ascii(), "?");
            it.put(Tag::NONE, format!("covetrivet: {ascii}").as_bytes());
        }
        it.is_closing = true;
        self.is_dirty(id);
    }

    /// Closes a connection at once.
    pub fn let_go(&mut self, id: Id, why: LetGo) {
        let Some(it) = self.clients.get(id) else { return };
        let (number, who, unread) = (it.number, &it.who, it.unread());
        self.log.write(&format!(
            "client {number} ({who}) is let go: {}, {unread} bytes were not read",
            why.word()
        ));
        self.tally.lets_go(why);
        self.left(id);
    }

    /// A client is gone.
    pub fn left(&mut self, id: Id) {
        let Some(it) = self.clients.take(id) else { return };
        if it.is_ready {
            self.ready.retain(|it| *it != id);
        }
        self.forget_waits_of(id);
        for (name, serial) in self.units.of(id) {
            self.orphaned(name, serial);
        }
    }

    /// Comes each second while anything waits to be read. A client that reads nothing is let go in time.
    pub fn tick(&mut self) {
        self.is_ticking = false;
        for id in self.clients.ids() {
            let Some(it) = self.clients.get_mut(id) else { continue };
            let (stuck, paused) = (it.tick(), it.seconds_paused);
            let goes_on = it.unread() > 0 || it.reading == Reading::Paused;
            if paused % SECONDS_TO_NEXT_FLOOD == SECONDS_OF_A_FLOOD {
                let (number, lines) = (it.number, it.lines);
                self.log.write(&format!(
                    "client {number} ({}) floods: {lines} lines so far, and more wait",
                    it.who
                ));
            }
            if stuck >= self.options.limits.slow {
                self.let_go(id, LetGo::Slow);
            } else if goes_on {
                self.ticks();
            }
        }
    }
}

fn who_is(fd: &OwnedFd, is_over_tcp: bool) -> Client {
    let peer = if is_over_tcp { None } else { sys::peer(fd.as_raw_fd()) };
    peer.map_or(Client::Stranger, |it| Client::local(it, sys::groups_of_peer(fd.as_raw_fd())))
}
