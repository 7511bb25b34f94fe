//! Pipelines of three stages over the locked manager: the twin of `crates/tp_bench/src/pipeline.rt`.

use super::{show, Manager};
use std::hint::black_box;
use std::time::Instant;

const ROWS: u32 = 256;

/// A pipeline's passes: each role's first one. A client and a server of the last stage make an element each time, those of the
/// other stages two.
struct Pipeline {
    manager: Manager,
    client: usize,
    first: usize,
    second: usize,
    third: usize,
    rows: u32,
    unit: u32,
}

impl Pipeline {
    /// With the passes for so many requests behind the first `taken` ones; with so many rows each.
    fn new(parts: usize, rows: u32, taken: usize, n: u32) -> Pipeline {
        let singles = n.div_ceil(rows) as usize;
        let pairs = n.div_ceil(rows / 2) as usize;
        Pipeline {
            manager: Manager::new(parts, rows as usize, 1),
            client: taken,
            first: taken + singles,
            second: taken + singles + pairs,
            third: taken + singles + 2 * pairs,
            rows,
            unit: 0,
        }
    }

    fn submit(&self, i: u32) {
        let pass = self.client + (i / self.rows) as usize;
        self.manager.submit(pass, 1, [0, u64::from(i), 0, 0]).unwrap();
    }

    #[inline(never)]
    fn turn(&mut self, pass: usize, stage: u8, next: u8) -> u64 {
        let Some((id, element)) = self.manager.claim(self.unit, stage) else {
            return 0;
        };
        let done = if next == 0 {
            self.manager.commit(pass, self.unit, id, &[(15, element.body)])
        } else {
            self.manager
                .commit(pass, self.unit, id, &[(next, element.body), (15, element.body)])
        };
        self.unit += 1;
        done as u64
    }

    fn first(&mut self, i: u32) -> u64 {
        self.turn(self.first + (i / (self.rows / 2)) as usize, 1, 2)
    }

    fn second(&mut self, i: u32) -> u64 {
        self.turn(self.second + (i / (self.rows / 2)) as usize, 2, 3)
    }

    fn third(&mut self, i: u32) -> u64 {
        self.turn(self.third + (i / self.rows) as usize, 3, 0)
    }

    fn one_by_one(&mut self, from: u32, n: u32) -> u64 {
        let mut done = 0;
        for i in from..from + n {
            self.submit(i);
            done += self.first(i) + self.second(i) + self.third(i);
        }
        done
    }

    fn stage_by_stage(&mut self, n: u32) -> u64 {
        (0..n).for_each(|i| self.submit(i));
        let mut done = 0;
        done += (0..n).map(|i| self.first(i)).sum::<u64>();
        done += (0..n).map(|i| self.second(i)).sum::<u64>();
        done += (0..n).map(|i| self.third(i)).sum::<u64>();
        done
    }

    fn park(&mut self, n: u32) {
        for i in 0..n {
            self.manager.submit(0, 1, [0, u64::from(i), 0, 0]);
            let (id, _) = self.manager.claim(self.unit, 1).unwrap();
            self.manager.abort(self.unit, id);
            self.unit += 1;
        }
    }

    fn hold(&mut self, stage: u8) {
        black_box(self.manager.claim(self.unit, stage).unwrap());
        self.unit += 1;
    }
}

fn measure(name: &str, mut pipeline: Pipeline, n: u32, run: impl Fn(&mut Pipeline) -> u64) {
    let before = Instant::now();
    let done = run(&mut pipeline);
    show(name, u64::from(n), before.elapsed().as_nanos(), black_box(done));
}

/// Prints a line for each pipeline and number of requests.
pub fn round() {
    for n in [64, 256, 1024, 1280] {
        measure("pipe_each", Pipeline::new(32, ROWS, 0, n), n, |p| p.one_by_one(0, n));
        measure("pipe_by_stage", Pipeline::new(32, ROWS, 0, n), n, |p| p.stage_by_stage(n));
        let mut behind = Pipeline::new(32, ROWS, 1, n);
        behind.park(128);
        measure("pipe_parked", behind, n, |p| p.one_by_one(0, n));
        if n <= 1024 {
            let mut beside = Pipeline::new(32, ROWS, 2, n + 2);
            beside.submit(0);
            beside.first(0);
            beside.hold(2);
            beside.submit(1);
            beside.hold(1);
            measure("pipe_held", beside, n, |p| p.one_by_one(2, n));
        }
    }
    for n in [64, 256, 448] {
        measure("pipe_16", Pipeline::new(16, ROWS, 0, n), n, |p| p.one_by_one(0, n));
        // Four passes that have as many rows as they want, for the spare blocks.
        measure("pipe_spare", Pipeline::new(4, 16 * ROWS, 0, n), n, |p| p.one_by_one(0, n));
    }
}
