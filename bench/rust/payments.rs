// The pipeline of `crates/tp_pipeline` over one Mutex round ordered sets: what a user would write instead, with the same
// servers, books and batches.  It forgets what is finished, so it needs no rollover.  The arguments are those of tp_pipeline:
// payments, turns of each desk on a thread of its own, steps of each turn's work.
use std::collections::{BTreeSet, HashMap};
use std::sync::Mutex;
use std::thread;

const BATCH: u64 = 256;
const ATTEMPTS: u8 = 1;
const CEILING: u64 = 98;

#[derive(Clone, Copy)]
struct Element {
    stage: u8,
    root: u64,
    body: [u64; 4],
}

#[derive(Clone, Copy)]
enum Status {
    Waiting(u8),
    Held(u8),
    Parked,
}

#[derive(Default)]
struct Inner {
    next: u64,
    elements: HashMap<u64, (Element, Status)>,
    families: HashMap<u64, Vec<u64>>,
    waiting: [BTreeSet<u64>; 16],
    parked: BTreeSet<u64>,
}

impl Inner {
    fn put(&mut self, element: Element) -> u64 {
        let id = self.next;
        self.next += 1;
        let element = Element { root: if element.root == u64::MAX { id } else { element.root }, ..element };
        self.elements.insert(id, (element, Status::Waiting(0)));
        self.families.entry(element.root).or_default().push(id);
        self.waiting[element.stage as usize].insert(id);
        id
    }

    /// Forgets an element that is finished, and its family with the last one.
    fn forget(&mut self, id: u64) -> Option<Element> {
        let (element, _) = self.elements.remove(&id)?;
        self.waiting[element.stage as usize].remove(&id);
        self.parked.remove(&id);
        let family = self.families.get_mut(&element.root).unwrap();
        family.retain(|&other| other != id);
        Some(element)
    }

    fn close(&mut self, root: u64) {
        if self.families.get(&root).is_some_and(Vec::is_empty) {
            self.families.remove(&root);
        }
    }
}

#[derive(Default)]
struct Manager(Mutex<Inner>);

impl Manager {
    fn submit(&self, body: [u64; 4]) -> u64 {
        self.0.lock().unwrap().put(Element { stage: 1, root: u64::MAX, body })
    }

    /// Takes the next waiting element of the stage behind this one, as in a circle.
    fn claim(&self, stage: u8, last: u64) -> Option<(u64, Element)> {
        let mut m = self.0.lock().unwrap();
        let waiting = &mut m.waiting[stage as usize];
        let id = *waiting.range(last + 1..).next().or(waiting.first())?;
        waiting.remove(&id);
        let (element, status) = m.elements.get_mut(&id).unwrap();
        let Status::Waiting(n) = *status else { unreachable!() };
        *status = Status::Held(n + 1);
        Some((id, *element))
    }

    fn commit(&self, id: u64, stage: u8, body: [u64; 4]) -> bool {
        let mut m = self.0.lock().unwrap();
        let Some((_, Status::Held(_))) = m.elements.get(&id) else { return false };
        let element = m.forget(id).unwrap();
        m.put(Element { stage, root: element.root, body });
        true
    }

    fn abort(&self, id: u64) {
        let mut m = self.0.lock().unwrap();
        let Some((element, status)) = m.elements.get_mut(&id) else { return };
        let (stage, Status::Held(n)) = (element.stage, *status) else { return };
        if n < ATTEMPTS {
            *status = Status::Waiting(n);
            m.waiting[stage as usize].insert(id);
        } else {
            *status = Status::Parked;
            m.parked.insert(id);
        }
    }

    fn next_error(&self, from: u64) -> Option<(u64, Element)> {
        let m = self.0.lock().unwrap();
        let id = *m.parked.range(from..).next()?;
        Some((id, m.elements[&id].0))
    }

    fn requeue(&self, id: u64) {
        let mut m = self.0.lock().unwrap();
        if m.parked.remove(&id) {
            let (element, status) = m.elements.get_mut(&id).unwrap();
            let stage = element.stage;
            *status = Status::Waiting(0);
            m.waiting[stage as usize].insert(id);
        }
    }

    fn cancel(&self, root: u64) {
        let mut m = self.0.lock().unwrap();
        for id in m.families.get(&root).cloned().unwrap_or_default() {
            m.forget(id);
        }
        m.close(root);
    }

    fn collect_next(&self, root: u64) -> Option<Element> {
        let mut m = self.0.lock().unwrap();
        let id = m.families.get(&root)?.iter().copied().find(|id| m.elements[id].0.stage == 15)?;
        let element = m.forget(id);
        m.close(root);
        element
    }
}

fn toil(steps: u32) {
    for _ in 0..steps {
        std::hint::spin_loop();
    }
}

struct Server {
    stage: u8,
    registers: [u64; 2],
    calls: u64,
    last: u64,
    steps: u32,
}

impl Server {
    fn effect(&mut self, e: &Element) -> Option<([u64; 2], u8, [u64; 4])> {
        toil(self.steps);
        let [first, second] = self.registers;
        match self.stage {
            1 if e.body[0] > CEILING => None,
            1 => Some(([first + 1, 0], 2, e.body)),
            2 => {
                let call = self.calls;
                self.calls += 1;
                let body = [e.body[0], e.body[1], call, 0];
                (call % 100 < 98).then_some(([first + e.body[0], second + 1], 3, body))
            }
            _ => Some(([first + 1, 0], 15, e.body)),
        }
    }

    /// A turn; whether it claimed anything.
    fn turn(&mut self, m: &Manager) -> bool {
        let Some((id, element)) = m.claim(self.stage, self.last) else { return false };
        self.last = id;
        match self.effect(&element) {
            Some((registers, stage, body)) => {
                if m.commit(id, stage, body) {
                    self.registers = registers;
                }
            }
            None => m.abort(id),
        }
        true
    }
}

/// Has the servers take a turn each, round after round, until nothing waits.  One server after another would cost more
/// here: the ordered sets would grow.
fn drain(servers: &mut [Server], m: &Manager) {
    loop {
        let mut claimed = false;
        for server in &mut *servers {
            claimed |= server.turn(m);
        }
        if !claimed {
            break;
        }
    }
}

fn main() {
    let numbers: Vec<u64> = std::env::args().skip(1).filter_map(|w| w.parse().ok()).collect();
    let number = |at: usize, otherwise: u64| numbers.get(at).copied().unwrap_or(otherwise);
    let (payments, turns, steps) = (number(0, 3000), number(1, BATCH), number(2, 0) as u32);
    let m = Manager::default();
    let mut servers = [1, 2, 3, 3].map(|stage| Server { stage, registers: [0, 0], calls: 0, last: 0, steps });
    let (mut submitted, mut collected, mut paid, mut cancelled, mut requeued) = (0, 0u64, 0u64, 0u64, 0u64);
    let mut open: Vec<u64> = Vec::new();
    while submitted < payments || !open.is_empty() {
        for _ in 0..BATCH {
            if submitted < payments {
                open.push(m.submit([submitted % 100 + 1, submitted, 0, 0]));
                submitted += 1;
            }
        }
        if turns > 0 {
            thread::scope(|s| {
                for server in &mut servers {
                    let m = &m;
                    s.spawn(move || (0..turns).for_each(|_| { server.turn(m); }));
                }
            });
        }
        drain(&mut servers, &m);
        let mut from = 0;
        while let Some((id, element)) = m.next_error(from) {
            if element.stage == 1 {
                m.cancel(element.root);
                open.retain(|&root| root != element.root);
                cancelled += 1;
            } else {
                m.requeue(id);
                requeued += 1;
            }
            from = id + 1;
        }
        drain(&mut servers, &m);
        open.retain(|&root| match m.collect_next(root) {
            Some(reply) => {
                collected += 1;
                paid += reply.body[0];
                false
            }
            None => true,
        });
    }
    let [_, charger, first, second] = &servers;
    let shipped = first.registers[0] + second.registers[0];
    assert!(shipped == collected && charger.registers == [paid, collected] && collected + cancelled == payments);
    println!("payments {payments}: {shipped} shipped, {cancelled} cancelled");
    println!("takings {paid} of {collected} charges");
    println!("requeued {requeued}");
}
