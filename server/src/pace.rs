//! How many lines the program may have at a time.
use crate::sys;
use std::time::{Duration, Instant};

/// Lines that the program may have, where they are quick, and at least.
const MOST: usize = 512;
const LEAST: usize = 16;
/// Else so many as take it so much of its processor.
const SECONDS: f64 = 0.002;
/// It is looked at again behind so many answers, and so much later.
const ANSWERS: usize = 64;
const BETWEEN: Duration = Duration::from_millis(10);

/// By the program's own processor. (By the clock on the wall it would have fewer lines just where it waits
/// for a processor, or for a disk that all lines share.)
pub struct Pace {
    window: usize,
    answers: usize,
    processor: f64,
    since: Instant,
}

impl Pace {
    /// Of this process, which has just begun: what that took isn't its lines'.
    pub fn new(process: u32, now: Instant) -> Pace {
        let processor = sys::processor_of(process).unwrap_or(0.0);
        Pace { window: MOST, answers: 0, processor, since: now }
    }

    pub fn window(&self) -> usize {
        self.window
    }

    /// How long a turn is of which so many lines would be usual: short where lines are slow, down to one
    /// line.
    pub fn share_of(&self, lines: usize) -> usize {
        (lines * self.window / MOST).max(1)
    }

    /// So many answers have come of this process.
    pub fn note(&mut self, answers: usize, process: u32, now: Instant) {
        self.answers += answers;
        if self.answers < ANSWERS || now.saturating_duration_since(self.since) < BETWEEN {
            return;
        }
        if let Some(it) = sys::processor_of(process) {
            self.measured(it, now);
        }
    }

    fn measured(&mut self, processor: f64, now: Instant) {
        let one = (processor - self.processor).max(0.0) / self.answers as f64;
        self.window = ((SECONDS / one.max(1e-9)) as usize).clamp(LEAST, MOST);
        (self.processor, self.answers, self.since) = (processor, 0, now);
    }
}

#[cfg(test)]
mod tests {
    use super::*;

    #[test]
    fn slow_lines_are_few() {
        let now = Instant::now();
        let mut it = Pace { processor: 0.0, ..Pace::new(std::process::id(), now) };
        for (answers, processor, window, turn) in
            [(1000, 0.001, 512, 16), (100, 0.003, 100, 3), (100, 0.203, 16, 1), (64, 0.203, 512, 16)]
        {
            it.answers = answers;
            it.measured(processor, now);
            assert_eq!((it.window(), it.share_of(16)), (window, turn));
        }
    }
}
