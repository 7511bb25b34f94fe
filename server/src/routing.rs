//! Whose the next answer is. Only this file knows: the program answers each line by one line, in their order,
//! and `dump` alone by several, of which the first one says how many follow. (A program that repeats tags
//! would be asked with one of the server's own here, and whose an answer is would be read from it.)
use crate::arrivals::Arrivals;
use crate::lines::{Name, Tag, Verb};
use crate::slab::Id;
use std::collections::VecDeque;
use std::time::Instant;

#[derive(Clone, Copy, PartialEq, Eq, Debug)]
pub enum Whose {
    Client(Id),
    /// A line of a client that waits for something.
    Wait(Id),
    /// The abort of a unit whose client is gone.
    Orphan,
    /// A page that is asked for, and which of its answers it is.
    Page(Id, usize),
}

/// Who answers a line.
#[derive(Clone, Copy, PartialEq, Eq, Debug)]
pub enum By {
    Program,
    /// The server: it is denied, a token, or has an answer for the sake of its tag alone.
    Denial,
    Token,
    Tag,
}

/// A line that isn't answered.
#[derive(Clone, Debug)]
pub struct Asked {
    pub whose: Whose,
    pub by: By,
    pub verb: Verb,
    pub name: Name,
    pub tag: Tag,
    /// Where something may wait, once it is answered, that didn't before.
    pub arrivals: Arrivals,
    pub since: Instant,
}

impl Asked {
    fn is_of_client(&self) -> bool {
        self.by == By::Program && matches!(self.whose, Whose::Client(_) | Whose::Wait(_))
    }
}

/// What a line of the program's is.
#[derive(Debug)]
pub enum Heard {
    /// All of an answer, or the last line of it.
    Whole(Asked),
    /// A line of an answer that has more.
    Part(Whose, Tag),
    /// Nobody has asked.
    Nobody,
}

#[derive(Default)]
pub struct Routing {
    asked: VecDeque<Asked>,
    /// What is answered by several lines, and how many are to come.
    part: Option<(Asked, usize)>,
    of_clients: usize,
}

impl Routing {
    pub fn put(&mut self, it: Asked) {
        self.of_clients += usize::from(it.is_of_client());
        self.asked.push_back(it);
    }

    /// How many lines aren't answered.
    pub fn len(&self) -> usize {
        self.asked.len() + usize::from(self.part.is_some())
    }

    pub fn is_empty(&self) -> bool {
        self.len() == 0
    }

    /// How many of them are clients', and the program's to answer.
    pub fn of_clients(&self) -> usize {
        self.of_clients
    }

    /// Whether one of them has this name.
    pub fn has_name(&self, name: Name) -> bool {
        self.asked.iter().any(|it| it.name == name)
    }

    /// Takes a line of the program's.
    pub fn take(&mut self, line: &[u8]) -> Heard {
        if let Some((asked, left)) = self.part.take() {
            if left == 1 {
                self.of_clients -= usize::from(asked.is_of_client());
                return Heard::Whole(asked);
            }
            let (whose, tag) = (asked.whose, asked.tag);
            self.part = Some((asked, left - 1));
            return Heard::Part(whose, tag);
        }
        let Some(asked) = self.asked.pop_front() else { return Heard::Nobody };
        let more = if asked.verb == Verb::Dump { more_of(line) } else { 0 };
        if more == 0 {
            self.of_clients -= usize::from(asked.is_of_client());
            return Heard::Whole(asked);
        }
        let (whose, tag) = (asked.whose, asked.tag);
        self.part = Some((asked, more));
        Heard::Part(whose, tag)
    }

    /// The next one, where the server answers it and its turn has come.
    pub fn own(&mut self) -> Option<Asked> {
        let is_own = self.part.is_none() && self.asked.front().is_some_and(|it| it.by != By::Program);
        if is_own {
            self.asked.pop_front()
        } else {
            None
        }
    }

    /// Takes all: the program has ended. The first one was answered in part.
    pub fn lose(&mut self) -> (Option<Asked>, Vec<Asked>) {
        self.of_clients = 0;
        (self.part.take().map(|it| it.0), self.asked.drain(..).collect())
    }
}

fn more_of(answer: &[u8]) -> usize {
    let many = answer.strip_prefix(b"dumped ").and_then(|it| std::str::from_utf8(it).ok());
    many.and_then(|it| it.parse().ok()).unwrap_or(0)
}

#[cfg(test)]
mod tests {
    use super::*;

    fn asked(number: u32, verb: Verb, by: By) -> Asked {
        let whose = Whose::Client(Id { slot: number, generation: 0 });
        let (name, tag, arrivals) = (Name::NONE, Tag::NONE, Arrivals::NONE);
        Asked { whose, by, verb, name, tag, arrivals, since: Instant::now() }
    }

    fn slot(it: &Whose) -> u32 {
        if let Whose::Client(id) = it {
            id.slot
        } else {
            u32::MAX
        }
    }

    #[test]
    fn answers_come_in_order_and_dumps_have_several_lines() {
        let mut routing = Routing::default();
        for (number, verb) in [(0, Verb::Count), (1, Verb::Dump), (2, Verb::Dump), (3, Verb::Read)] {
            routing.put(asked(number, verb, By::Program));
        }
        let lines = ["waiting 0", "dumped 2", "> a", "> restore", "refused 7 Full", "dumped 9"];
        let told: Vec<String> = lines
            .iter()
            .map(|line| match routing.take(line.as_bytes()) {
                Heard::Whole(it) => format!("whole {}", slot(&it.whose)),
                Heard::Part(it, _) => format!("part {}", slot(&it)),
                Heard::Nobody => "nobody".into(),
            })
            .collect();
        assert_eq!(told, ["whole 0", "part 1", "part 1", "whole 1", "whole 2", "whole 3"]);
        assert!(matches!(routing.take(b"more"), Heard::Nobody));
        assert_eq!((routing.len(), routing.of_clients()), (0, 0));
    }

    #[test]
    fn what_the_server_answers_has_its_turn() {
        let mut routing = Routing::default();
        routing.put(asked(0, Verb::Dump, By::Program));
        routing.put(asked(1, Verb::Kill, By::Denial));
        assert!(routing.own().is_none());
        routing.take(b"dumped 1");
        assert!(routing.own().is_none());
        routing.take(b"> restore");
        assert_eq!(routing.own().map(|it| slot(&it.whose)), Some(1));
        assert!(routing.is_empty());
    }
}
