//! Requests of several elements over one lock with an index by root: the twin of `crates/tp_bench/src/families.rt`. Ordered sets of what
//! is ready for each stage, as in `mutex.rs`, and for each root the ids of its elements, in the order of their births.

use super::{show, Element, Status};
use std::collections::{BTreeSet, HashMap};
use std::hint::black_box;
use std::sync::Mutex;
use std::time::Instant;

const ROWS: u32 = 256;

struct Inner {
    rows: Vec<Option<(Element, Status)>>,
    drawn: Vec<u32>,
    waiting: [BTreeSet<u32>; 16],
    parked: BTreeSet<u32>,
    families: HashMap<u32, Vec<u32>>,
}

impl Inner {
    fn bear(&mut self, pass: usize, stage: u8, root: Option<u32>, body: [u64; 4]) -> Option<u32> {
        if self.drawn[pass] == ROWS {
            return None;
        }
        let id = pass as u32 * ROWS + self.drawn[pass];
        let root = root.unwrap_or(id);
        self.drawn[pass] += 1;
        self.rows[id as usize] = Some((Element { stage, root, body }, Status::Waiting(0)));
        self.waiting[stage as usize].insert(id);
        self.families.entry(root).or_default().push(id);
        Some(id)
    }
}

struct Indexed(Mutex<Inner>);

impl Indexed {
    fn new(parts: usize) -> Indexed {
        Indexed(Mutex::new(Inner {
            rows: vec![None; parts * ROWS as usize],
            drawn: vec![0; parts],
            waiting: Default::default(),
            parked: BTreeSet::new(),
            families: HashMap::new(),
        }))
    }

    fn submit(&self, pass: usize, stage: u8, body: [u64; 4]) -> Option<u32> {
        if stage == 0 || stage > 14 {
            return None;
        }
        self.0.lock().unwrap().bear(pass, stage, None, body)
    }

    fn claim_id(&self, unit: u32, id: u32) -> Option<Element> {
        let mut guard = self.0.lock().unwrap();
        let m = &mut *guard;
        let (e, s) = m.rows[id as usize].as_mut()?;
        let Status::Waiting(n) = *s else {
            return None;
        };
        *s = Status::Held(unit, n + 1);
        m.waiting[e.stage as usize].remove(&id);
        Some(*e)
    }

    fn commit(&self, pass: usize, unit: u32, id: u32, outs: &[(u8, [u64; 4])]) -> Option<u32> {
        let mut m = self.0.lock().unwrap();
        let (e, s) = m.rows[id as usize].unwrap();
        if !matches!(s, Status::Held(u, _) if u == unit) || m.drawn[pass] + outs.len() as u32 > ROWS {
            return None;
        }
        m.rows[id as usize].as_mut().unwrap().1 = Status::Consumed(unit);
        let first = pass as u32 * ROWS + m.drawn[pass];
        for &(stage, body) in outs {
            m.bear(pass, stage, Some(e.root), body);
        }
        Some(first)
    }

    /// The least id from this one on of a reply to the request that waits.
    fn reply(&self, root: u32, from: u32) -> Option<u32> {
        let m = self.0.lock().unwrap();
        let is_reply = |id: u32| matches!(m.rows[id as usize], Some((e, Status::Waiting(_))) if e.stage == 15);
        m.families.get(&root)?.iter().copied().filter(|&id| id >= from && is_reply(id)).min()
    }

    /// How many elements were killed.
    fn cancel(&self, root: u32) -> Option<u32> {
        let mut guard = self.0.lock().unwrap();
        let m = &mut *guard;
        let mut killed = 0;
        for &id in m.families.get(&root)? {
            let (e, s) = m.rows[id as usize].as_mut().unwrap();
            if e.stage == 15 || matches!(s, Status::Consumed(_) | Status::Killed) {
                continue;
            }
            match *s {
                Status::Waiting(_) => m.waiting[e.stage as usize].remove(&id),
                Status::Parked(_) => m.parked.remove(&id),
                _ => true,
            };
            *s = Status::Killed;
            killed += 1;
        }
        Some(killed)
    }
}

fn grow(m: &Indexed, pass: usize, unit: &mut u32, root: u32, size: u32, last: u8) {
    let (mut id, mut left) = (root, size - 1);
    while left > 0 {
        let count = left.min(4);
        left -= count;
        m.claim_id(*unit, id).unwrap();
        let first = if left == 0 { last } else { 2 };
        let body = [0, 1, 0, 0];
        let drafts = [(first, body), (2, body), (2, body), (2, body)];
        id = m.commit(pass, *unit, id, &drafts[..count as usize]).unwrap();
        *unit += 1;
    }
}

/// A manager with so many requests of this size, beside others of so many passes.
fn made(others: usize, count: u32, size: u32, last: u8) -> Indexed {
    let m = Indexed::new(32);
    for pass in 1..1 + others {
        (0..ROWS).for_each(|i| _ = m.submit(pass, 1, [0, i as u64, 0, 0]));
    }
    (0..count).for_each(|i| _ = m.submit(0, 1, [0, i as u64, 0, 0]));
    let mut unit = 0;
    (0..count).for_each(|root| grow(&m, 1 + others, &mut unit, root, size, last));
    m
}

#[inline(never)]
fn replies(m: &Indexed, count: u32) -> u64 {
    (0..count).filter_map(|i| m.reply(i, i)).map(u64::from).sum()
}

#[inline(never)]
fn cancels(m: &Indexed, count: u32) -> u64 {
    (0..count).filter(|&i| m.cancel(i).is_some()).count() as u64
}

fn ask(name: &str, others: usize, size: u32) {
    let m = made(others, 16, size, 15);
    let t = Instant::now();
    for _ in 0..4 {
        black_box(replies(&m, 16));
    }
    show(name, size as u64, t.elapsed().as_nanos(), 64);
}

fn end(name: &str, others: usize, size: u32, count: u32) {
    let m = made(others, count, size, 2);
    let t = Instant::now();
    let done = black_box(cancels(&m, count));
    show(name, size as u64, t.elapsed().as_nanos(), done);
}

pub fn round() {
    for size in [1, 2, 3, 6, 10] {
        ask("reply_family", 0, size);
        ask("reply_family_6144", 24, size);
    }
    for (size, count) in [(1, 16), (6, 16), (100, 2)] {
        end("cancel_family", 0, size, count);
        end("cancel_family_6144", 24, size, count);
    }
}
