//! Where something may wait behind a line that didn't before, as far as the line itself tells.
use crate::head::Names;
use crate::lines::{stage_of, words, Name, Verb, REPLIES};
use crate::units::Units;

/// Four outputs of a unit, and the stage of what is given up.
const MOST: usize = 5;

/// A few stages, or all of them; and whether replies are among what comes.
#[derive(Clone, Copy, PartialEq, Eq, Debug)]
pub struct Arrivals {
    stages: [u16; MOST],
    pub is_anywhere: bool,
    pub has_replies: bool,
}

impl Arrivals {
    pub const NONE: Arrivals = Arrivals { stages: [0; MOST], is_anywhere: false, has_replies: false };
    /// In any stage, but no replies.
    const AGAIN: Arrivals = Arrivals { is_anywhere: true, ..Arrivals::NONE };
    pub const ANYTHING: Arrivals = Arrivals { is_anywhere: true, has_replies: true, ..Arrivals::NONE };

    fn of(stages: impl Iterator<Item = Option<u16>>) -> Arrivals {
        let mut it = Arrivals::NONE;
        for (at, stage) in stages.enumerate() {
            match (stage, it.stages.get_mut(at)) {
                (Some(REPLIES), _) => it.has_replies = true,
                (Some(stage), Some(place)) => *place = stage,
                // (a word that is no number, or more than there may be)
                _ => return Arrivals::ANYTHING,
            }
        }
        it
    }

    pub fn is_none(&self) -> bool {
        *self == Arrivals::NONE
    }

    pub fn stages(&self) -> impl Iterator<Item = u16> {
        self.stages.into_iter().filter(|it| *it > 0)
    }
}

/// Returns where something may come by this line.
pub fn arrivals_of(verb: Verb, name: Name, line: &[u8], names: &Names, units: &Units) -> Arrivals {
    use Verb::*;
    let word = |at| words(line).nth(at).map_or(Arrivals::NONE, |it| Arrivals::of([stage_of(it)].into_iter()));
    let takes = names.get(&name);
    // (what a unit gives up, which is of another stage where it was asked for by its id)
    let own_stage = takes.filter(|_| !units.is_taken(name)).map(|it| it.stage);
    match verb {
        Submit => word(1),
        // (where it will take from)
        Worker => word(2),
        Send => word(3),
        Commit => match takes {
            Some(it) if !it.outputs.is_empty() => outputs(&it.outputs, own_stage),
            _ => outputs_in(line, takes.is_some()),
        },
        Turn => takes.map_or(Arrivals::ANYTHING, |it| outputs(&it.outputs, own_stage)),
        Abort | Leave | Drop | Prepare => own_stage.map_or(Arrivals::AGAIN, |it| outputs(&[], Some(it))),
        Release | Requeue => Arrivals::AGAIN,
        Drain | Other => Arrivals::ANYTHING,
        _ => Arrivals::NONE,
    }
}

fn outputs(stages: &[u16], own: Option<u16>) -> Arrivals {
    match own {
        Some(own) => Arrivals::of(stages.iter().copied().chain([own]).map(Some)),
        None => Arrivals::ANYTHING,
    }
}

/// The outputs that a commit names. One of a name that isn't known may be a server's, which names none.
fn outputs_in(line: &[u8], is_known: bool) -> Arrivals {
    let mut outs = words(line).skip(2).filter(|it| it.first() != Some(&b'=')).peekable();
    if outs.peek().is_none() && !is_known {
        return Arrivals::ANYTHING;
    }
    Arrivals::of(outs.map(stage_of))
}

#[cfg(test)]
mod tests {
    use super::*;
    use crate::head::note_name;
    use crate::lines::name_of;
    use std::time::Instant;

    fn told(line: &str, units: &Units) -> (Vec<u16>, bool, bool) {
        let mut names = Names::new();
        for it in
            ["worker ann 3", "server till eager 2 1 add 15:same:after 4:1:1", "server end eager 5 1 add"]
        {
            note_name(&mut names, it.as_bytes());
        }
        let mut it = words(line.as_bytes());
        let (verb, name) = (Verb::of(it.next().unwrap_or(b"")), name_of(it.next().unwrap_or(b"")));
        let found = arrivals_of(verb, name, line.as_bytes(), &names, units);
        (found.stages().collect(), found.is_anywhere, found.has_replies)
    }

    #[test]
    fn what_lines_tell() {
        let mut units = Units::default();
        let some = |stages: &[u16], replies| (stages.to_vec(), false, replies);
        let anything = (vec![], true, true);
        for (line, wanted) in [
            ("submit 7 5 6", some(&[7], false)),
            ("send shop 3 9 5 6", some(&[9], false)),
            ("commit ann 1:5:6 15:1:2 3:4:5", some(&[1, 3], true)),
            ("commit ann =7:1 2:1:1", some(&[2], false)),
            ("commit ann", some(&[], false)),
            ("commit nobody", anything.clone()),
            ("commit till", some(&[4, 2], true)),
            ("turn till", some(&[4, 2], true)),
            ("turn end", some(&[5], false)),
            ("turn x", anything.clone()),
            ("abort ann", some(&[3], false)),
            ("leave ann", some(&[3], false)),
            ("abort nobody", (vec![], true, false)),
            ("release 5", (vec![], true, false)),
            ("drain", anything.clone()),
            ("nonsense", anything),
            ("claim ann", some(&[], false)),
            ("kill 7", some(&[], false)),
        ] {
            assert_eq!(told(line, &units), wanted, "{line}");
        }
        // Of what was asked for by its id it isn't known in which stage it waits again.
        units.begin(Name::of(b"ann"), None, Instant::now(), true);
        assert_eq!(told("abort ann", &units), (vec![], true, false));
    }
}
