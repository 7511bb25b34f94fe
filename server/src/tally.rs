//! What a server counts.
use crate::lines::{name_of, refused, Name, Verb};
use std::collections::BTreeMap;
use std::time::Duration;

/// How long lines waited is counted by powers of four, from 8 microseconds to 33 seconds, and what took
/// longer.
pub const BUCKETS: usize = 12;
const FIRST_BUCKET: u64 = 8;

/// Why a client was let go.
#[derive(Clone, Copy, PartialEq, Eq, PartialOrd, Ord, Debug)]
pub enum LetGo {
    Connections,
    Denied,
    Slow,
    Token,
    Unread,
}

impl LetGo {
    pub fn word(self) -> &'static str {
        match self {
            LetGo::Connections => "connections",
            LetGo::Denied => "denied",
            LetGo::Slow => "slow",
            LetGo::Token => "token",
            LetGo::Unread => "unread",
        }
    }
}

pub struct Tally {
    pub connected: u64,
    pub let_go: BTreeMap<LetGo, u64>,
    pub answers: [u64; Verb::ALL.len()],
    pub refusals: BTreeMap<String, u64>,
    /// Lines by the right that allows them.
    pub rights: Vec<u64>,
    pub unanswered: u64,
    /// Lines of a node whose answers are lost, since it leads no more.
    pub lost: u64,
    pub buckets: [u64; BUCKETS + 1],
    pub waited: Duration,
    pub aborted: u64,
    pub restarts: u64,
    pub tries: u64,
    pub bytes_in: u64,
    pub bytes_out: u64,
}

impl Tally {
    pub fn new(rights: usize) -> Tally {
        let all = [LetGo::Connections, LetGo::Denied, LetGo::Slow, LetGo::Token, LetGo::Unread];
        Tally {
            connected: 0,
            let_go: all.into_iter().map(|it| (it, 0)).collect(),
            answers: [0; Verb::ALL.len()],
            refusals: BTreeMap::new(),
            rights: vec![0; rights],
            unanswered: 0,
            lost: 0,
            buckets: [0; BUCKETS + 1],
            waited: Duration::ZERO,
            aborted: 0,
            restarts: 0,
            tries: 0,
            bytes_in: 0,
            bytes_out: 0,
        }
    }

    pub fn lets_go(&mut self, why: LetGo) {
        *self.let_go.entry(why).or_insert(0) += 1;
    }

    /// Counts an answer, which came so long after its line.
    pub fn hear(&mut self, verb: Verb, name: Name, answer: &[u8], took: Duration) {
        self.answers[verb as usize] += 1;
        self.waited += took;
        self.buckets[bucket_of(took)] += 1;
        if let Some(why) = refusal_in(answer, name) {
            match self.refusals.get_mut(&*why) {
                Some(many) => *many += 1,
                None => drop(self.refusals.insert(why.into_owned(), 1)),
            }
        }
    }

    pub fn all_answers(&self) -> u64 {
        self.answers.iter().sum()
    }
}

fn bucket_of(took: Duration) -> usize {
    let most = took.as_micros().div_ceil(u128::from(FIRST_BUCKET)).max(1);
    let bits = u128::BITS - (most - 1).leading_zeros();
    (bits.div_ceil(2) as usize).min(BUCKETS)
}

/// The upper bound of a bucket, in seconds.
pub fn bound_of(bucket: usize) -> f64 {
    (FIRST_BUCKET << (2 * bucket)) as f64 / 1e6
}

/// Returns the name of the refusal that this is an answer of, to a line with this second word.
fn refusal_in(answer: &[u8], name: Name) -> Option<std::borrow::Cow<'_, str>> {
    if let Some(why) = refused(answer) {
        return Some(String::from_utf8_lossy(why));
    }
    let mut words = answer.split(|it| *it == b' ');
    if name.is_none() || name_of(words.next()?) != name {
        return None;
    }
    Some(match words.next()? {
        b"busy" => "Busy".into(),
        b"none" => "NoneOpen".into(),
        b"other" => "Other".into(),
        b"lost" => "Lost".into(),
        b"already" => "AlreadyAborted".into(),
        b"ended" => "Ended".into(),
        b"refused" => match words.nth(1) {
            Some(why) if !matches!(why, b"NoRegister" | b"TooLarge" | b"Short") => {
                String::from_utf8_lossy(why)
            }
            _ => "Declined".into(),
        },
        _ => return None,
    })
}

#[cfg(test)]
mod tests {
    use super::*;

    #[test]
    fn buckets() {
        for (micros, bucket) in
            [(0, 0), (8, 0), (9, 1), (32, 1), (33, 2), (128, 2), (1 << 25, 11), (1 << 26, 12), (1 << 40, 12)]
        {
            assert_eq!(bucket_of(Duration::from_micros(micros)), bucket, "{micros}");
            assert!(bucket == BUCKETS || micros as f64 / 1e6 <= bound_of(bucket));
        }
    }

    #[test]
    fn refusals() {
        let name = Name::of(b"ann");
        let told = |answer: &'static str| refusal_in(answer.as_bytes(), name).map(|it| it.into_owned());
        for (answer, why) in [
            ("refused 7 Full", "Full"),
            ("ann busy", "Busy"),
            ("ann lost 7", "Lost"),
            ("ann refused 7 Short", "Declined"),
            ("ann refused 7 NotWaiting", "NotWaiting"),
            ("ann none", "NoneOpen"),
        ] {
            assert_eq!(told(answer).as_deref(), Some(why));
        }
        assert_eq!([told("ann idle"), told("bob busy"), told("submitted 0")], [None, None, None]);
        assert_eq!(refusal_in(b"busy busy", Name::NONE), None);
    }
}
