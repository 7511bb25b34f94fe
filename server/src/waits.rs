//! Lines that wait: `claim NAME wait SECONDS`, and so `next` and `receive`. Each is tried by the program, and
//! again once something may have come for it.
//!
//! Of those that wait for work of one stage the first is tried. It tells the next one where it was answered
//! otherwise than by `idle`: more may be there. What is heard of while one is tried was there before it:
//! answers come in the order of lines. So nothing that comes is missed, and it takes two tries at most.
use crate::lines::{Name, Tag, Verb};
use crate::slab::{Id, Slab};
use std::collections::{HashMap, VecDeque};
use std::time::Instant;

/// What a line waits for.
#[derive(Clone, Copy, PartialEq, Eq, Hash, Debug)]
pub enum For {
    Work(u16),
    /// Work of a stage that isn't known.
    AnyWork,
    /// Replies. Whose these are isn't known before they are asked for, so all are tried.
    Replies,
}

pub struct Wait {
    pub client: Id,
    pub verb: Verb,
    pub name: Name,
    pub tag: Tag,
    /// The line that is tried.
    pub line: Box<[u8]>,
    pub is_for: For,
    pub until: Instant,
    pub state: State,
}

#[derive(Clone, Copy, PartialEq, Eq, Debug)]
pub enum State {
    Parked,
    /// The program has its line, because something was there for this.
    Tried(For),
}

#[derive(Default)]
pub struct Waits {
    all: Slab<Wait>,
    queues: HashMap<For, VecDeque<Id>>,
}

impl Default for Slab<Wait> {
    fn default() -> Self {
        Slab::new()
    }
}

impl Waits {
    pub fn len(&self) -> usize {
        self.all.len()
    }

    pub fn is_empty(&self) -> bool {
        self.all.is_empty()
    }

    pub fn get(&self, id: Id) -> Option<&Wait> {
        self.all.get(id)
    }

    pub fn get_mut(&mut self, id: Id) -> Option<&mut Wait> {
        self.all.get_mut(id)
    }

    /// Whether others wait for the same.
    pub fn has(&self, it: For) -> bool {
        self.queues.get(&it).is_some_and(|it| !it.is_empty())
    }

    pub fn put(&mut self, it: Wait) -> Id {
        let is_for = it.is_for;
        let id = self.all.put(it);
        self.queues.entry(is_for).or_default().push_back(id);
        id
    }

    pub fn take(&mut self, id: Id) -> Option<Wait> {
        let it = self.all.take(id)?;
        self.leave(id, it.is_for);
        Some(it)
    }

    fn leave(&mut self, id: Id, is_for: For) {
        if let Some(queue) = self.queues.get_mut(&is_for) {
            if let Some(at) = queue.iter().position(|it| *it == id) {
                queue.remove(at);
            }
            if queue.is_empty() {
                self.queues.remove(&is_for);
            }
        }
    }

    pub fn ids(&self) -> Vec<Id> {
        self.all.ids()
    }

    /// The lines of a client that wait.
    pub fn of(&self, client: Id) -> Vec<Id> {
        self.all.iter().filter(|it| it.1.client == client).map(|it| it.0).collect()
    }

    /// Those that are to be tried where something may have come for them.
    pub fn to_try(&self, it: For) -> Vec<Id> {
        let Some(queue) = self.queues.get(&it) else { return Vec::new() };
        let most = if let For::Work(_) = it { 1 } else { usize::MAX };
        let is_parked = |id: &&Id| self.get(**id).is_some_and(|it| it.state == State::Parked);
        queue.iter().filter(is_parked).take(most).copied().collect()
    }

    /// What is waited for.
    pub fn queues(&self) -> Vec<For> {
        self.queues.keys().copied().collect()
    }

    /// The lines by which a worker of this name waits for work.
    pub fn of_name(&self, name: Name) -> Vec<Id> {
        let own = |it: &(Id, &Wait)| it.1.name == name && it.1.is_for != For::Replies;
        self.all.iter().filter(own).map(|it| it.0).collect()
    }

    /// The worker of this name takes from this stage from now on. Returns its lines, which are to be tried.
    pub fn moved(&mut self, name: Name, stage: u16) -> Vec<Id> {
        let them = self.of_name(name);
        for id in &them {
            let Some(was) = self.get(*id).map(|it| it.is_for) else { continue };
            self.leave(*id, was);
            self.queues.entry(For::Work(stage)).or_default().push_back(*id);
            if let Some(it) = self.get_mut(*id) {
                it.is_for = For::Work(stage);
            }
        }
        them
    }
}

impl Wait {
    /// Whether this answer says that nothing is there: `NAME idle`, where a stage may stand behind, or
    /// `received NAME N none`.
    pub fn is_nothing(&self, answer: &[u8]) -> bool {
        if self.verb == Verb::Receive {
            return answer.starts_with(b"received ") && answer.ends_with(b" none");
        }
        let rest = answer.strip_prefix(self.name.bytes());
        rest.is_some_and(|it| it == b" idle" || it.starts_with(b" idle "))
    }
}

#[cfg(test)]
mod tests {
    use super::*;

    fn wait(number: u32, name: &[u8], is_for: For) -> Wait {
        let client = Id { slot: number, generation: 0 };
        let (verb, name, tag, line) = (Verb::Claim, Name::of(name), Tag::NONE, Box::from(&b"claim"[..]));
        Wait { client, verb, name, tag, line, is_for, until: Instant::now(), state: State::Parked }
    }

    #[test]
    fn the_first_of_a_stage_and_all_of_others() {
        let mut waits = Waits::default();
        let three = For::Work(3);
        let them: Vec<Id> = [three, three, For::Work(4), For::Replies, For::Replies]
            .into_iter()
            .enumerate()
            .map(|(at, it)| waits.put(wait(at as u32, b"ann", it)))
            .collect();
        assert_eq!(waits.to_try(three), [them[0]]);
        if let Some(it) = waits.get_mut(them[0]) {
            it.state = State::Tried(three);
        }
        assert_eq!(waits.to_try(three), [them[1]]);
        assert_eq!(waits.to_try(For::Replies), [them[3], them[4]]);
        assert!(waits.to_try(For::Work(5)).is_empty());
        waits.take(them[1]);
        assert!(waits.to_try(three).is_empty() && waits.has(three));
        waits.take(them[0]);
        assert!(!waits.has(three));
        assert_eq!(waits.moved(Name::of(b"ann"), 7), [them[2]]);
        assert!(waits.to_try(For::Work(4)).is_empty() && waits.to_try(For::Work(7)) == [them[2]]);
    }

    #[test]
    fn answers_that_say_nothing() {
        let it = wait(0, b"ann", For::AnyWork);
        assert!(it.is_nothing(b"ann idle") && it.is_nothing(b"ann idle 3"));
        assert!(!it.is_nothing(b"anne idle") && !it.is_nothing(b"ann busy") && !it.is_nothing(b"unknown"));
        let it = Wait { verb: Verb::Receive, ..wait(0, b"shop", For::Replies) };
        assert!(it.is_nothing(b"received shop 3 none") && !it.is_nothing(b"received shop 3 7 7 1:2:0:0"));
    }
}
