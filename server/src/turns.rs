//! Whose lines go to the program next.
use crate::arrivals::{arrivals_of, Arrivals};
use crate::connection::Connection;
use crate::life::{Going, Phase};
use crate::lines::{is_asked, kept_of, name_of, tag_in, wait_in, words, Name, Verb};
use crate::rights::Client;
use crate::routing::{Asked, By, Whose};
use crate::server::{Server, Source};
use crate::slab::Id;
use crate::sys::{find, WRITABLE};
use crate::units::UNKNOWN;

/// How many lines of a client are handed over in its turn, empty ones and comments counted.
const LINES_OF_A_TURN: usize = 16;
/// So many in a round of the loop, before sockets are looked at again.
const LINES_OF_A_ROUND: usize = 4096;
/// So many bytes wait at most for the program to take them.
const MOST_BYTES: usize = 65_536;
pub const DENIED: &[u8] = b"refused 18 Denied";

impl Server {
    /// Whether the program may have another line.
    pub fn has_room(&self) -> bool {
        let runs = matches!((&self.going, &self.phase), (Going::Runs, Phase::Serves));
        runs && self.routing.of_clients() < self.pace.window() && self.input.len() - self.given <= MOST_BYTES
    }

    /// Each client that has lines hands over some of them, and stands behind the others then.
    pub fn take_turns(&mut self) {
        let mut left = LINES_OF_A_ROUND;
        while left > 0 && self.has_room() {
            let Some(id) = self.ready.pop_front() else { return };
            let most = self.pace.share_of(LINES_OF_A_TURN).min(left);
            left -= self.take_turn(id, most).max(1);
        }
    }

    /// Returns how many lines it took.
    fn take_turn(&mut self, id: Id, most: usize) -> usize {
        // (it counts as standing in the queue until its turn is over: nothing else is to look at its input)
        let Some((input, mut at)) = self.clients.get_mut(id).map(Connection::lend_input) else { return 0 };
        let mut many = 0;
        while many < most && self.has_room() {
            let may_hand = self.clients.get(id).is_some_and(|it| it.may_hand(&self.options.limits));
            let Some(length) = find(&input[at..], b'\n').filter(|_| may_hand) else { break };
            self.hand_over(id, &input[at..at + length]);
            at += length + 1;
            many += 1;
        }
        if let Some(it) = self.clients.get_mut(id) {
            it.is_ready = false;
            it.lines += many as u64;
            it.take_back(input, at);
        }
        self.settle(id);
        many
    }

    fn hand_over(&mut self, from: Id, line: &[u8]) {
        let (tag, line) = tag_in(line);
        let mut asked = Asked {
            whose: Whose::Client(from),
            by: By::Program,
            verb: Verb::Other,
            name: Name::NONE,
            tag,
            arrivals: Arrivals::NONE,
            since: self.now,
        };
        if !is_asked(line) {
            self.tally.unanswered += 1;
            if !tag.is_none() {
                self.answer_itself(Asked { by: By::Tag, ..asked });
            }
            return;
        }
        let line = kept_of(line);
        let mut it = words(line);
        asked.verb = Verb::of(it.next().unwrap_or(b""));
        if asked.verb.has_name() {
            asked.name = name_of(it.next().unwrap_or(b""));
        }
        if asked.verb == Verb::Token {
            return self.take_token(asked, line);
        }
        if !self.may(from, asked.verb, line) {
            return self.answer_itself(Asked { by: By::Denial, ..asked });
        }
        self.is_in_flight(from);
        match wait_in(asked.verb, line) {
            Some((before, seconds)) => self.wait(from, asked, before, seconds),
            None => {
                if !self.waits.is_empty() || asked.verb == Verb::Worker {
                    asked.arrivals = arrivals_of(asked.verb, asked.name, line, &self.names, &self.units);
                }
                self.ask(asked, line);
            }
        }
    }

    fn is_in_flight(&mut self, client: Id) {
        if let Some(it) = self.clients.get_mut(client) {
            it.in_flight += 1;
        }
    }

    /// Whether this client may have this line performed.
    fn may(&mut self, client: Id, verb: Verb, line: &[u8]) -> bool {
        let Some(it) = self.clients.get(client) else { return false };
        if it.who == Client::Stranger {
            return false;
        }
        let Some(own) = &it.own else { return true };
        let right = self.rights.allows(own, verb, line);
        if let Some(it) = right.and_then(|it| self.tally.rights.get_mut(usize::from(it))) {
            *it += 1;
        }
        right.is_some()
    }

    /// A client shows who it is. One that shows what is no token is let go.
    fn take_token(&mut self, asked: Asked, line: &[u8]) {
        let Whose::Client(from) = asked.whose else { return };
        let secret = words(line).nth(1).unwrap_or(b"");
        let Some(name) = self.tokens.whose(secret) else {
            self.log.write("a client gave what is no token");
            self.answer_itself(Asked { by: By::Denial, ..asked });
            return self.dismiss_once_answered(from);
        };
        let who = Client::Token(name);
        let own = self.rights.of(&who);
        if let Some(it) = self.clients.get_mut(from) {
            (it.who, it.own) = (who, own);
        }
        self.answer_itself(Asked { by: By::Token, name, ..asked });
    }

    /// No more lines of this client are handed over, and it is closed behind its answers, once its turn is over.
    fn dismiss_once_answered(&mut self, id: Id) {
        if let Some(it) = self.clients.get_mut(id) {
            it.refuse_more();
            self.poll.change(it.fd(), it.events(), Source::Client(id).token());
        }
    }

    /// The server answers this line, in its turn.
    fn answer_itself(&mut self, asked: Asked) {
        if let Whose::Client(from) = asked.whose {
            self.is_in_flight(from);
        }
        if self.routing.is_empty() {
            self.tell_own(&asked);
        } else {
            self.routing.put(asked);
        }
    }

    /// Has a line performed behind all before. Where the program is just gone, it is answered as one that was
    /// lost.
    pub fn ask(&mut self, asked: Asked, line: &[u8]) {
        if !matches!(self.going, Going::Runs) {
            return self.tell(&asked, UNKNOWN);
        }
        self.routing.put(asked);
        self.input.extend_from_slice(line);
        self.input.push(b'\n');
    }

    /// Writes what there is, as far as the program takes it.
    pub fn hand_on(&mut self) {
        while self.given < self.input.len() {
            match self.program.write(&self.input[self.given..]) {
                0 => {
                    self.input.drain(..self.given);
                    self.given = 0;
                    return self.block(true);
                }
                many => self.given += many,
            }
        }
        self.input.clear();
        self.given = 0;
        self.block(false);
    }

    fn block(&mut self, is_blocked: bool) {
        if self.is_blocked != is_blocked {
            self.is_blocked = is_blocked;
            let events = if is_blocked { WRITABLE } else { 0 };
            self.poll.change(self.program.input, events, Source::Input.token());
        }
    }
}
