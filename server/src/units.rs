//! Which worker or server has a unit of work open, by which client, and since when: as the lines and answers
//! tell.
use crate::lines::{name_of, refused, Name, Verb};
use crate::routing::Asked;
use crate::slab::Id;
use std::collections::HashMap;
use std::time::Instant;

/// What the server answers to a line that its session was lost with: it has been performed, or not.
pub const UNKNOWN: &[u8] = b"unknown";

#[derive(Clone, PartialEq, Eq, Debug)]
pub struct Unit {
    /// Whose it is; None where that one was never here.
    pub owner: Option<Id>,
    pub since: Instant,
    /// No two units have the same.
    pub serial: u64,
    /// Whether it was asked for by the id of its element.
    is_taken: bool,
}

/// The open units, by their names. Anyone may end a unit, whoever began it.
#[derive(Default)]
pub struct Units {
    open: HashMap<Name, Unit>,
    serial: u64,
}

impl Units {
    /// Takes note of a unit, and returns its serial number.
    pub fn begin(&mut self, name: Name, owner: Option<Id>, since: Instant, is_taken: bool) -> u64 {
        self.serial += 1;
        self.open.insert(name, Unit { owner, since, serial: self.serial, is_taken });
        self.serial
    }

    pub fn iter(&self) -> impl Iterator<Item = (&Name, &Unit)> {
        self.open.iter()
    }

    pub fn get(&self, name: Name) -> Option<&Unit> {
        self.open.get(&name)
    }

    pub fn is_open(&self, name: Name, serial: u64) -> bool {
        self.get(name).is_some_and(|it| it.serial == serial)
    }

    pub fn is_taken(&self, name: Name) -> bool {
        self.get(name).is_some_and(|it| it.is_taken)
    }

    /// The units of a client.
    pub fn of(&self, client: Id) -> Vec<(Name, u64)> {
        let own = self.open.iter().filter(|it| it.1.owner == Some(client));
        own.map(|it| (*it.0, it.1.serial)).collect()
    }

    /// Takes note of an answer. Returns the serial number of the unit that it says is open since then.
    pub fn hear(&mut self, asked: &Asked, owner: Option<Id>, answer: &[u8], now: Instant) -> Option<u64> {
        let said =
            if asked.verb == Verb::Leave { answer.strip_prefix(b"left ").unwrap_or(answer) } else { answer };
        let at = said.iter().position(|it| *it == b' ').unwrap_or(said.len());
        if asked.name.is_none() || name_of(&said[..at]) != asked.name || refused(answer).is_some() {
            return None;
        }
        let rest = said.get(at + 1..).unwrap_or(b"");
        if asked.verb.begins() && rest.starts_with(b"work ") {
            return Some(self.begin(asked.name, owner, now, asked.verb == Verb::Take));
        }
        if ends(asked.verb, rest) {
            self.open.remove(&asked.name);
        }
        None
    }

    /// Takes note that these have units open and no others, where the answers to lines were lost, each with
    /// its client. One that isn't known is of the client whose lost line asked for it, or of nobody.
    pub fn settle(&mut self, names: &[Name], lost: &[(Asked, Option<Id>)], now: Instant) {
        let mut may_be_over: Vec<Name> = Vec::new();
        for (it, owner) in lost.iter().filter(|it| !it.0.name.is_none()) {
            if it.verb.begins() && (!self.open.contains_key(&it.name) || may_be_over.contains(&it.name)) {
                self.begin(it.name, *owner, now, it.verb == Verb::Take);
                may_be_over.retain(|name| *name != it.name);
            } else if ends(it.verb, b"") {
                may_be_over.push(it.name);
            }
        }
        self.open.retain(|name, _| names.contains(name));
        for name in names {
            if !self.open.contains_key(name) {
                self.begin(*name, None, now, true);
            }
        }
    }
}

/// Whether a unit is over with this answer, behind the name. Work that a server declined is given up. A unit
/// that isn't the one which the line means goes on.
fn ends(verb: Verb, said: &[u8]) -> bool {
    match verb {
        Verb::Commit | Verb::Abort => said != b"other",
        Verb::Drop | Verb::Leave => true,
        Verb::Prepare => said.starts_with(b"refused ") || said.starts_with(b"lost "),
        _ => false,
    }
}

#[cfg(test)]
mod tests {
    use super::*;
    use crate::arrivals::Arrivals;
    use crate::lines::{words, Tag};
    use crate::routing::{By, Whose};

    const OLD: Id = Id { slot: 1, generation: 0 };
    const NEW: Id = Id { slot: 2, generation: 0 };

    fn asked(line: &str) -> Asked {
        let mut it = words(line.as_bytes());
        let (verb, name) = (Verb::of(it.next().unwrap_or(b"")), name_of(it.next().unwrap_or(b"")));
        let (whose, tag, arrivals) = (Whose::Client(NEW), Tag::NONE, Arrivals::NONE);
        Asked { whose, by: By::Program, verb, name, tag, arrivals, since: Instant::now() }
    }

    fn both() -> Units {
        let mut units = Units::default();
        for name in ["packer", "other"] {
            units.begin(name_of(name.as_bytes()), Some(OLD), Instant::now(), false);
        }
        units
    }

    /// Whose the units are behind these lines whose answers were lost, where these names have any.
    fn settled(names: &[&str], lines: &[&str]) -> Vec<(String, Option<Id>)> {
        let mut units = both();
        let names: Vec<Name> = names.iter().map(|it| name_of(it.as_bytes())).collect();
        let lost: Vec<_> = lines.iter().map(|it| (asked(it), Some(NEW))).collect();
        units.settle(&names, &lost, Instant::now());
        let mut found: Vec<_> = units.iter().map(|it| (it.0.to_string(), it.1.owner)).collect();
        found.sort();
        found
    }

    fn named(them: &[(&str, Option<Id>)]) -> Vec<(String, Option<Id>)> {
        them.iter().map(|it| (it.0.to_string(), it.1)).collect()
    }

    #[test]
    fn a_commit_was_performed_or_not() {
        let both = named(&[("other", Some(OLD)), ("packer", Some(OLD))]);
        assert_eq!(settled(&["packer", "other"], &[]), both);
        assert_eq!(settled(&["other", "packer"], &["commit packer"]), both);
        assert_eq!(settled(&["other"], &["commit packer"]), named(&[("other", Some(OLD))]));
    }

    #[test]
    fn whose_claim_it_was() {
        // The claim by a name with an open unit was answered by busy, unless a line before it ended the unit.
        assert_eq!(settled(&["packer"], &["claim packer"]), named(&[("packer", Some(OLD))]));
        let lines = ["abort packer", "take packer 3", "commit packer", "next till"];
        assert_eq!(
            settled(&["packer", "till"], &lines),
            named(&[("packer", Some(NEW)), ("till", Some(NEW))])
        );
        assert_eq!(settled(&[], &[]), named(&[]));
        assert_eq!(settled(&["till"], &["count "]), named(&[("till", None)]));
    }

    #[test]
    fn what_answers_say() {
        for (line, answer, left) in [
            ("prepare packer", "packer ready", 2),
            ("prepare packer", "packer lost 7", 1),
            ("abort packer", "packer already 7", 1),
            ("commit packer =7:1", "packer other", 2),
            ("commit packer", "packer done 0 unit 0 outputs 1 0", 1),
            ("leave packer", "left packer aborted 0", 1),
            ("commit packer", "refused line 7: 5 BadName", 2),
            ("claim third", "third work 7 unit 1 attempt 1 root 7 body 1:2:0:0", 3),
            ("claim third", "third idle", 2),
        ] {
            let mut units = both();
            units.hear(&asked(line), Some(NEW), answer.as_bytes(), Instant::now());
            assert_eq!(units.iter().count(), left, "{line}: {answer}");
        }
    }
}
