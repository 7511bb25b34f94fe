//! For how long elements have been there, as far as a server has heard.
use crate::lines::{words, Verb};
use std::time::{Duration, Instant};

const MOST_KEPT: usize = 16_384;

/// When elements were born. Ids come in the order of births, so it is enough to know of some of them. One
/// behind all that were heard of, as what a drain makes, counts from when it is asked for first.
#[derive(Default)]
pub struct Ages(Vec<(u64, Instant)>);

impl Ages {
    /// Takes note of an answer of this time.
    pub fn hear(&mut self, verb: Verb, answer: &[u8], now: Instant) {
        if let Some(last) = last_born(verb, answer) {
            self.note(last, now);
        }
    }

    /// All elements up to this one are there at this time. (A send that is made again tells an older one.)
    fn note(&mut self, last: u64, now: Instant) {
        if self.0.last().is_some_and(|it| it.0 >= last) {
            return;
        }
        self.0.push((last, now));
        if self.0.len() > MOST_KEPT {
            // (each that is left out counts as born with the next one)
            let mut at = 0;
            self.0.retain(|_| {
                at += 1;
                at > MOST_KEPT / 2 || at % 2 == 1
            });
        }
    }

    /// Returns how long ago this element was born, at least.
    pub fn of(&mut self, element: u64, now: Instant) -> Duration {
        self.note(element, now);
        let at = self.0.partition_point(|it| it.0 < element);
        self.0.get(at).map_or(Duration::ZERO, |it| now.saturating_duration_since(it.1))
    }
}

/// The last element that an answer says was born.
fn last_born(verb: Verb, answer: &[u8]) -> Option<u64> {
    let number = |it: Option<&[u8]>| it.and_then(|it| std::str::from_utf8(it).ok()?.parse::<u64>().ok());
    let mut words = words(answer);
    match verb {
        Verb::Submit if words.next() == Some(b"submitted") => number(words.next()),
        Verb::Send if words.next() == Some(b"sent") => number(words.nth(2)),
        // (NAME done ID unit U outputs FIRST COUNT)
        Verb::Commit | Verb::Turn if words.nth(1) == Some(b"done") => {
            let (first, many) = (number(words.nth(4))?, number(words.next())?);
            first.checked_add(many.checked_sub(1)?)
        }
        _ => None,
    }
}

#[cfg(test)]
mod tests {
    use super::*;

    const PAST_ALL: &str = "packer done 1 unit 65 outputs 18446744073709551615 2";

    struct Heard(Ages, Instant);

    impl Heard {
        fn new() -> Heard {
            Heard(Ages::default(), Instant::now())
        }
        fn at(&self, seconds: u64) -> Instant {
            self.1 + Duration::from_secs(seconds)
        }
        fn hear(&mut self, verb: Verb, answer: &str, seconds: u64) {
            let at = self.at(seconds);
            self.0.hear(verb, answer.as_bytes(), at);
        }
        /// Their ages at second 100.
        fn ages(&mut self, elements: &[u64]) -> Vec<u64> {
            let now = self.at(100);
            elements.iter().map(|it| self.0.of(*it, now).as_secs()).collect()
        }
    }

    #[test]
    fn submits_and_sends() {
        let mut it = Heard::new();
        it.hear(Verb::Submit, "submitted 3", 10);
        it.hear(Verb::Send, "sent shop 1 5", 20);
        // the same element once more, and what is none
        it.hear(Verb::Send, "sent shop 1 5", 30);
        for answer in ["sent shop 1 done", "refused 7 Full"] {
            it.hear(Verb::Send, answer, 40);
        }
        // (one of which nothing was heard was there before the next one)
        assert_eq!(it.ages(&[0, 3, 4, 5]), [90, 90, 80, 80]);
    }

    #[test]
    fn outputs() {
        let mut it = Heard::new();
        it.hear(Verb::Commit, "packer done 0 unit 64 outputs 1 3", 10);
        it.hear(Verb::Turn, "till.2 done 1 unit 32 outputs 4 1", 20);
        for answer in ["packer done 1 unit 65 outputs 5 0", "packer lost 2", "till idle", PAST_ALL] {
            it.hear(Verb::Commit, answer, 30);
        }
        assert_eq!(it.ages(&[1, 2, 3, 4, 5]), [90, 90, 90, 80, 0]);
    }

    #[test]
    fn no_more_are_kept_than_there_may_be() {
        let mut it = Heard::new();
        for element in 0..100_000 {
            let at = it.at(0) + Duration::from_micros(element);
            it.0.hear(Verb::Submit, format!("submitted {element}").as_bytes(), at);
            assert!(it.0 .0.len() <= MOST_KEPT);
        }
        // Nothing is told to be older than it is, and what is older is told so.
        let now = it.at(100);
        let ages: Vec<Duration> = (0..100_000).map(|element| it.0.of(element, now)).collect();
        let is_born = |(at, age): (usize, &Duration)| {
            *age <= Duration::from_secs(100) - Duration::from_micros(at as u64)
        };
        assert!(ages.iter().enumerate().all(is_born) && ages.windows(2).all(|it| it[0] >= it[1]));
        assert_eq!(ages[0], Duration::from_secs(100));
    }
}
