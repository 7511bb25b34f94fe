// What a user would write instead: one Mutex round a plain manager with the same semantics (least id first, attempts,
// kill, replies, error queue), with ordered ready sets; std alone.  Prints NAME K NANOSECONDS CALLS, as tp_bench does.
mod families;
mod pipelines;

use std::collections::BTreeSet;
use std::hint::black_box;
use std::sync::atomic::{AtomicU64, Ordering::SeqCst};
use std::sync::Mutex;
use std::thread;
use std::time::Instant;

#[derive(Clone, Copy)]
struct Element {
    stage: u8,
    root: u32,
    body: [u64; 4],
}
#[derive(Clone, Copy, PartialEq)]
enum Status {
    Waiting(u8),
    Held(u32, u8),
    Consumed(u32),
    Parked(u8),
    Killed,
}
struct Inner {
    rows: Vec<Option<(Element, Status)>>,
    drawn: Vec<u32>,
    per: u32,
    waiting: [BTreeSet<u32>; 16],
    parked: BTreeSet<u32>,
    limit: u8,
}
struct Manager(Mutex<Inner>);

impl Manager {
    fn new(parts: usize, rows: usize, limit: u8) -> Manager {
        Manager(Mutex::new(Inner {
            rows: vec![None; parts * rows],
            drawn: vec![0; parts],
            per: rows as u32,
            waiting: Default::default(),
            parked: BTreeSet::new(),
            limit,
        }))
    }
    fn submit(&self, pass: usize, stage: u8, body: [u64; 4]) -> Option<u32> {
        if stage == 0 || stage > 14 {
            return None;
        }
        let mut m = self.0.lock().unwrap();
        if m.drawn[pass] == m.per {
            return None;
        }
        let id = pass as u32 * m.per + m.drawn[pass];
        m.drawn[pass] += 1;
        m.rows[id as usize] = Some((
            Element {
                stage,
                root: id,
                body,
            },
            Status::Waiting(0),
        ));
        m.waiting[stage as usize].insert(id);
        Some(id)
    }
    fn claim(&self, unit: u32, stage: u8) -> Option<(u32, Element)> {
        let mut m = self.0.lock().unwrap();
        let id = m.waiting[stage as usize].pop_first()?;
        let (e, s) = m.rows[id as usize].as_mut().unwrap();
        let Status::Waiting(n) = *s else {
            unreachable!()
        };
        *s = Status::Held(unit, n + 1);
        Some((id, *e))
    }
    fn commit(&self, pass: usize, unit: u32, id: u32, outs: &[(u8, [u64; 4])]) -> bool {
        let mut m = self.0.lock().unwrap();
        let (e, s) = m.rows[id as usize].unwrap();
        if !matches!(s, Status::Held(u, _) if u == unit)
            || m.drawn[pass] + outs.len() as u32 > m.per
        {
            return false;
        }
        m.rows[id as usize].as_mut().unwrap().1 = Status::Consumed(unit);
        for &(stage, body) in outs {
            let out = pass as u32 * m.per + m.drawn[pass];
            m.drawn[pass] += 1;
            m.rows[out as usize] = Some((
                Element {
                    stage,
                    root: e.root,
                    body,
                },
                Status::Waiting(0),
            ));
            m.waiting[stage as usize].insert(out);
        }
        true
    }
    fn abort(&self, unit: u32, id: u32) -> bool {
        let mut m = self.0.lock().unwrap();
        let limit = m.limit;
        let (e, s) = m.rows[id as usize].as_mut().unwrap();
        let Status::Held(u, n) = *s else { return false };
        if u != unit {
            return false;
        }
        let stage = e.stage;
        *s = if n < limit {
            Status::Waiting(n)
        } else {
            Status::Parked(n)
        };
        if n < limit {
            m.waiting[stage as usize].insert(id);
        } else {
            m.parked.insert(id);
        }
        true
    }
    fn kill(&self, id: u32) -> bool {
        let mut m = self.0.lock().unwrap();
        let Some((e, s)) = m.rows[id as usize] else {
            return false;
        };
        if matches!(s, Status::Consumed(_) | Status::Killed) {
            return false;
        }
        m.waiting[e.stage as usize].remove(&id);
        m.parked.remove(&id);
        m.rows[id as usize].as_mut().unwrap().1 = Status::Killed;
        true
    }
    fn read(&self, id: u32) -> Option<(Element, Status)> {
        self.0.lock().unwrap().rows[id as usize]
    }
    fn reply(&self, root: u32, from: u32) -> Option<u32> {
        let m = self.0.lock().unwrap();
        m.waiting[15]
            .range(from..)
            .copied()
            .find(|&i| matches!(m.rows[i as usize], Some((e, _)) if e.root == root))
    }
    fn next_error(&self, from: u32) -> Option<u32> {
        self.0.lock().unwrap().parked.range(from..).next().copied()
    }
}

fn show(name: &str, k: u64, ns: u128, calls: u64) {
    println!("{name} {k} {ns} {calls}");
}
#[inline(never)]
fn submits(m: &Manager, pass: usize, stage: u8, n: u32) -> u64 {
    (0..n)
        .filter(|&i| m.submit(pass, stage, [0, i as u64, 0, 0]).is_some())
        .count() as u64
}
#[inline(never)]
fn turns(m: &Manager, pass: usize, used: &mut u32, stage: u8, n: u32, bare: bool) -> u64 {
    let mut done = 0;
    for _ in 0..n {
        if let Some((id, e)) = m.claim(*used, stage) {
            let ok = if bare {
                m.commit(pass, *used, id, &[])
            } else {
                m.commit(pass, *used, id, &[(15, e.body)])
            };
            *used += 1;
            done += ok as u64;
        }
    }
    done
}
macro_rules! timed {
    ($name:expr, $k:expr, $calls:expr, $e:expr) => {{
        let t = Instant::now();
        let a = black_box($e);
        let ns = t.elapsed().as_nanos();
        let _ = a;
        show($name, $k, ns, $calls);
        a
    }};
}

fn small() {
    let m = Manager::new(2, 256, 7);
    timed!("submit", 0, 256, submits(&m, 0, 1, 256));
    timed!(
        "submit_full",
        0,
        256,
        (0..256)
            .filter(|&i| m.submit(1, 2, [7, i, 7, 7]).is_some())
            .count()
    );
    timed!(
        "read_waiting",
        0,
        256,
        (0..256).map(|i| m.read(i).unwrap().0.body[1]).sum::<u64>()
    );
    timed!(
        "kill_waiting",
        0,
        256,
        (0..256).filter(|&i| m.kill(i)).count()
    );
    timed!(
        "read_killed",
        0,
        256,
        (0..256).map(|i| m.read(i).unwrap().0.body[1]).sum::<u64>()
    );
    for bare in [true, false] {
        let m = Manager::new(2, 256, 7);
        submits(&m, 0, 1, 256);
        let mut used = 1024;
        for k in 0..16 {
            timed!(
                if bare { "turn_bare" } else { "turn" },
                k * 16,
                16,
                turns(&m, 1, &mut used, 1, 16, bare)
            );
        }
        if bare {
            timed!(
                "read_consumed",
                0,
                256,
                (0..256).map(|i| m.read(i).unwrap().0.body[1]).sum::<u64>()
            );
            continue;
        }
        timed!(
            "reply_at_once",
            0,
            256,
            (0..256)
                .filter_map(|i| m.reply(i, 256 + i))
                .map(u64::from)
                .sum::<u64>()
        );
        timed!(
            "reply_after_256",
            0,
            64,
            (0..64)
                .filter_map(|i| m.reply(i, i))
                .map(u64::from)
                .sum::<u64>()
        );
        timed!(
            "next_error_512_done",
            0,
            16,
            (0..16).filter_map(|_| m.next_error(0)).count()
        );
    }
    let m = Manager::new(2, 256, 7);
    submits(&m, 0, 1, 8);
    timed!(
        "claim_abort",
        0,
        56,
        (0..56)
            .filter(|&u| match m.claim(u, 1) {
                Some((id, _)) => m.abort(u, id),
                None => false,
            })
            .count()
    );
}

fn large() {
    let m = timed!("make_largest", 0, 1, Manager::new(32, 256, 3));
    timed!(
        "idle_empty",
        0,
        8,
        (0..8).filter(|&u| m.claim(u, 1).is_none()).count()
    );
    timed!(
        "idle_empty",
        8,
        8,
        (0..8).filter(|&u| m.claim(u, 1).is_none()).count()
    );
    timed!(
        "next_error_empty",
        0,
        8,
        (0..8).filter_map(|_| m.next_error(0)).count()
    );
    timed!(
        "next_error_empty",
        8,
        8,
        (0..8).filter_map(|_| m.next_error(0)).count()
    );
    for p in 0..24 {
        submits(&m, p, 1, 256);
    }
    timed!(
        "idle_other_stage_6144",
        0,
        8,
        (0..8).filter(|&u| m.claim(u, 2).is_none()).count()
    );
    timed!(
        "idle_other_stage_6144",
        8,
        8,
        (0..8).filter(|&u| m.claim(u, 2).is_none()).count()
    );
    timed!(
        "next_error_6144_waiting",
        0,
        8,
        (0..8).filter_map(|_| m.next_error(0)).count()
    );
    timed!(
        "reply_none_6144_waiting",
        0,
        8,
        (0..8).filter_map(|i| m.reply(i, i)).count()
    );
    for p in 24..32 {
        submits(&m, p, 1, 256);
        let mut used = p as u32 * 1024;
        for b in 0..64u64 {
            let batch = (p as u64 - 24) * 64 + b;
            let t = Instant::now();
            let a = turns(&m, p, &mut used, 1, 16, true);
            let ns = t.elapsed().as_nanos();
            if [0, 4, 16, 64, 256, 500].contains(&batch) {
                show("turn_large", batch * 16, ns, a);
            }
        }
    }
    timed!(
        "next_error_8192_done",
        0,
        8,
        (0..8).filter_map(|_| m.next_error(0)).count()
    );
    timed!(
        "next_error_8192_done",
        8,
        8,
        (0..8).filter_map(|_| m.next_error(0)).count()
    );
    timed!(
        "reply_none_8192_done",
        0,
        8,
        (0..8).filter_map(|i| m.reply(i, i)).count()
    );
}

fn threads(name: &str, n: usize, work: impl Fn(usize) -> u64 + Sync) {
    let gate = AtomicU64::new(0);
    let zero = Instant::now();
    let spans: Vec<(u128, u128, u64)> = thread::scope(|s| {
        (0..n)
            .map(|t| {
                let (gate, work) = (&gate, &work);
                s.spawn(move || {
                    gate.fetch_add(1, SeqCst);
                    while gate.load(SeqCst) < n as u64 {}
                    let b = zero.elapsed().as_nanos();
                    let d = work(t);
                    (b, zero.elapsed().as_nanos(), d)
                })
            })
            .collect::<Vec<_>>()
            .into_iter()
            .map(|h| h.join().unwrap())
            .collect()
    });
    let (b, e) = (
        spans.iter().map(|s| s.0).min().unwrap(),
        spans.iter().map(|s| s.1).max().unwrap(),
    );
    show(name, n as u64, e - b, spans.iter().map(|s| s.2).sum());
}

fn race() {
    for n in [1, 2, 4] {
        let m = Manager::new(16, 256, 3);
        threads("submit_threads", n, |t| {
            (0..4).map(|i| submits(&m, t * 4 + i, 1, 256)).sum()
        });
        for own in [true, false] {
            for bare in [true, false] {
                if n == 1 && !own {
                    continue;
                }
                let m = Manager::new(16, 256, 3);
                for t in 0..n {
                    submits(&m, t, if own { 1 + t as u8 } else { 1 }, 256);
                }
                let name = match (own, bare) {
                    (true, true) => "turn_bare_own",
                    (true, false) => "turn_own",
                    (false, true) => "turn_bare_shared",
                    (false, false) => "turn_shared",
                };
                threads(name, n, |t| {
                    turns(
                        &m,
                        4 + t,
                        &mut ((4 + t as u32) * 1024),
                        if own { 1 + t as u8 } else { 1 },
                        256,
                        bare,
                    )
                });
            }
        }
    }
}

fn main() {
    let rounds: u32 = std::env::args()
        .nth(1)
        .and_then(|w| w.parse().ok())
        .unwrap_or(1);
    for _ in 0..rounds {
        for _ in 0..4 {
            small();
        }
        large();
        families::round();
        pipelines::round();
        race();
    }
}
