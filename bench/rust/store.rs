// What a user would write instead of tp_store: a store of one thread over std's BTreeMap and BTreeSet, with the same calls, the
// same order and the same answers.  Prints NAME ALIVE NANOSECONDS CALLS, as tp_store_bench does.
use std::collections::{BTreeMap, BTreeSet, VecDeque};
use std::hint::black_box;
use std::time::Instant;

const REPLIES: u16 = 15;
const KEEP: usize = 1000;
const ATTEMPTS: u8 = 3;

#[derive(Clone, Copy)]
enum Status {
    Waiting(u8),
    Held(u64, u8),
    Consumed(u64),
    Parked(u8),
    Killed,
}

#[derive(Clone, Copy)]
struct Element {
    root: u64,
    by: Option<u64>,
    owner: Option<u64>,
    body: [u64; 4],
    status: Status,
    stage: u16,
    rounds: u8,
}

#[derive(Clone, Copy, Default)]
struct Counts {
    waiting: u64,
    held: u64,
    consumed: u64,
    parked: u64,
    killed: u64,
}

impl Counts {
    fn of(&mut self, status: &Status) -> &mut u64 {
        match status {
            Status::Waiting(_) => &mut self.waiting,
            Status::Held(..) => &mut self.held,
            Status::Consumed(_) => &mut self.consumed,
            Status::Parked(_) => &mut self.parked,
            Status::Killed => &mut self.killed,
        }
    }
}

struct Store {
    next: u64,
    units: u64,
    elements: BTreeMap<u64, Element>,
    ready: Vec<BTreeSet<u64>>,
    parked: BTreeSet<u64>,
    replies: BTreeSet<(u64, u64)>,
    owned: BTreeSet<(u64, u64)>,
    families: BTreeSet<(u64, u64)>,
    alive: BTreeMap<u64, u64>,
    counts: Vec<Counts>,
    ended: VecDeque<u64>,
}

impl Store {
    fn new() -> Store {
        Store {
            next: 0,
            units: 0,
            elements: BTreeMap::new(),
            ready: vec![BTreeSet::new(); 1000],
            parked: BTreeSet::new(),
            replies: BTreeSet::new(),
            owned: BTreeSet::new(),
            families: BTreeSet::new(),
            alive: BTreeMap::new(),
            counts: vec![Counts::default(); 1000],
            ended: VecDeque::new(),
        }
    }

    fn birth(&mut self, element: Element) -> u64 {
        let id = self.next;
        self.next += 1;
        self.elements.insert(id, element);
        self.families.insert((element.root, id));
        *self.alive.entry(element.root).or_insert(0) += 1;
        *self.counts[element.stage as usize].of(&element.status) += 1;
        self.queue(id, &element);
        id
    }

    // It waits, or is parked.
    fn queue(&mut self, id: u64, element: &Element) {
        match element.status {
            Status::Parked(_) => {
                self.parked.insert(id);
            }
            _ => {
                self.ready[element.stage as usize].insert(id);
                if element.stage == REPLIES {
                    self.replies.insert((element.root, id));
                    if let Some(owner) = element.owner {
                        self.owned.insert((owner, id));
                    }
                }
            }
        }
    }

    fn unqueue(&mut self, id: u64, element: &Element) {
        match element.status {
            Status::Waiting(_) => {
                self.ready[element.stage as usize].remove(&id);
                if element.stage == REPLIES {
                    self.replies.remove(&(element.root, id));
                    if let Some(owner) = element.owner {
                        self.owned.remove(&(owner, id));
                    }
                }
            }
            Status::Parked(_) => {
                self.parked.remove(&id);
            }
            _ => {}
        }
    }

    fn change(&mut self, id: u64, status: Status) {
        let element = self.elements.get_mut(&id).unwrap();
        let counts = &mut self.counts[element.stage as usize];
        *counts.of(&element.status) -= 1;
        *counts.of(&status) += 1;
        element.status = status;
    }

    fn settled(&mut self, root: u64) {
        let alive = self.alive.get_mut(&root).unwrap();
        *alive -= 1;
        if *alive > 0 {
            return;
        }
        self.alive.remove(&root);
        self.ended.push_back(root);
        if self.ended.len() > KEEP {
            let oldest = self.ended.pop_front().unwrap();
            let ids: Vec<u64> = self.families.range((oldest, 0)..=(oldest, u64::MAX)).map(|it| it.1).collect();
            for id in ids {
                self.families.remove(&(oldest, id));
                self.elements.remove(&id);
            }
        }
    }

    fn submit(&mut self, stage: u16, body: [u64; 4], owner: Option<u64>) -> Option<u64> {
        if stage == 0 || stage > 999 || stage == REPLIES {
            return None;
        }
        let root = self.next;
        Some(self.birth(Element { root, by: None, owner, body, status: Status::Waiting(0), stage, rounds: 0 }))
    }

    fn claim(&mut self, stage: u16) -> Option<(u64, u64, Element)> {
        let id = *self.ready.get(stage as usize)?.first()?;
        let element = self.elements[&id];
        let Status::Waiting(attempts) = element.status else { return None };
        self.unqueue(id, &element);
        let unit = self.units;
        self.units += 1;
        self.change(id, Status::Held(unit, attempts + 1));
        Some((id, unit, element))
    }

    fn holder(&self, id: u64, unit: u64) -> Option<(Element, u8)> {
        let element = *self.elements.get(&id)?;
        match element.status {
            Status::Held(holder, attempt) if holder == unit => Some((element, attempt)),
            _ => None,
        }
    }

    fn commit(&mut self, id: u64, unit: u64, outputs: &[(u16, [u64; 4])]) -> bool {
        let Some((element, _)) = self.holder(id, unit) else { return false };
        for (stage, body) in outputs {
            self.birth(Element {
                root: element.root,
                by: Some(unit),
                owner: element.owner,
                body: *body,
                status: Status::Waiting(0),
                stage: *stage,
                rounds: 0,
            });
        }
        self.change(id, Status::Consumed(unit));
        self.settled(element.root);
        true
    }

    fn abort(&mut self, id: u64, unit: u64) -> bool {
        let Some((mut element, attempt)) = self.holder(id, unit) else { return false };
        let status = if attempt < ATTEMPTS { Status::Waiting(attempt) } else { Status::Parked(attempt) };
        self.change(id, status);
        element.status = status;
        self.queue(id, &element);
        true
    }

    fn list(&self, stage: u16, from: u64, most: usize) -> Vec<(u64, Element)> {
        self.ready[stage as usize].range(from..).take(most).map(|id| (*id, self.elements[id])).collect()
    }

    fn kill(&mut self, id: u64) -> bool {
        let Some(element) = self.elements.get(&id).copied() else { return false };
        if matches!(element.status, Status::Consumed(_) | Status::Killed) {
            return false;
        }
        self.unqueue(id, &element);
        self.change(id, Status::Killed);
        self.settled(element.root);
        true
    }

    fn collect(&mut self, id: u64) -> bool {
        let Some(element) = self.elements.get(&id).copied() else { return false };
        if element.stage != REPLIES || !matches!(element.status, Status::Waiting(_)) {
            return false;
        }
        self.unqueue(id, &element);
        let unit = self.units;
        self.units += 1;
        self.change(id, Status::Consumed(unit));
        self.settled(element.root);
        true
    }
}

fn below(number: u64, end: u64) -> u64 {
    let mixed = (number ^ (number >> 31)).wrapping_mul(0x9e37_79b9_7f4a_7c15);
    let again = (mixed ^ (mixed >> 29)).wrapping_mul(0xbf58_476d_1ce4_e5b9);
    if end == 0 { 0 } else { (again ^ (again >> 32)) % end }
}

fn timed(name: &str, alive: u64, mut calls: impl FnMut() -> u64) {
    let start = Instant::now();
    let count = calls();
    println!("{name} {alive} {} {count}", start.elapsed().as_nanos());
}

fn measure(alive: u64) {
    let mut store = Store::new();
    let few = if alive < 100_000 { alive / 2 } else { 50_000 };
    let count = |times: u64, call: &mut dyn FnMut(u64) -> bool| (0..times).filter(|&i| call(i)).count() as u64;
    timed("submit_all", alive, || count(alive, &mut |i| store.submit(1, [i, 1, 0, 0], None).is_some()));
    timed("read", alive, || count(200_000, &mut |i| black_box(store.elements.get(&below(i, alive)).copied()).is_some()));
    timed("list", alive, || (0..50).map(|_| black_box(store.list(1, 0, 4000)).len() as u64).sum());
    timed("claim_abort", alive, || {
        count(few / 4, &mut |_| store.claim(1).is_some_and(|(id, unit, _)| store.abort(id, unit)))
    });
    timed("turn", alive, || {
        count(few, &mut |i| store.claim(1).is_some_and(|(id, unit, _)| store.commit(id, unit, &[(2, [i, 2, 0, 0])])))
    });
    timed("turn_reply", alive, || {
        count(few, &mut |i| store.claim(2).is_some_and(|(id, unit, _)| store.commit(id, unit, &[(REPLIES, [i, 2, 0, 0])])))
    });
    timed("collect", alive, || {
        count(few, &mut |_| match store.ready[REPLIES as usize].first().copied() {
            Some(id) => store.collect(id),
            None => false,
        })
    });
    timed("submit", alive, || count(few, &mut |i| store.submit(1, [i, 1, 0, 0], None).is_some()));
    timed("kill", alive, || count(few, &mut |i| store.kill(below(i, alive))));
    let read: u64 = store.elements.values().map(|it| it.by.unwrap_or(0) ^ it.rounds as u64 ^ it.body[0]).sum();
    black_box(read);
}

fn main() {
    for word in std::env::args().skip(1) {
        measure(word.parse().expect("a number"));
    }
}
