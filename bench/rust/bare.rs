// The bare atomic instructions that the calls need, on a table like the manager's, in the same order: no packing, no
// bounds, no pass. Prints NAME K NANOSECONDS CALLS, as tp_bench does.
use std::hint::black_box;
use std::sync::atomic::{AtomicU64, Ordering, Ordering::*};
use std::thread;
use std::time::Instant;

fn show(name: &str, k: u64, ns: u128, calls: u64) {
    println!("{name} {k} {ns} {calls}");
}
macro_rules! timed {
    ($name:expr, $k:expr, $calls:expr, $e:expr) => {{
        let t = Instant::now();
        let a = black_box($e);
        let ns = t.elapsed().as_nanos();
        let _ = a;
        show($name, $k, ns, $calls);
    }};
}

fn table(n: usize) -> Vec<AtomicU64> {
    (0..n).map(|_| AtomicU64::new(0)).collect()
}

// A row's words: its head, the four of its body, its claim.
const ROW: usize = 6;
const CLAIM: usize = 5;

// One word of the body isn't 0, and the others need no store: a row is used once.
#[inline(always)]
fn store_body(t: &[AtomicU64], i: usize, amount: u64, order: Ordering) {
    t[ROW * i + 2].store(amount, order);
}
#[inline(always)]
fn load_body(t: &[AtomicU64], i: usize, order: Ordering) -> u64 {
    t[ROW * i + 1].load(order)
        + t[ROW * i + 2].load(order)
        + t[ROW * i + 3].load(order)
        + t[ROW * i + 4].load(order)
}
#[inline(never)]
fn submits_seqcst(t: &[AtomicU64], first: usize) {
    for i in first..first + 256 {
        store_body(t, i, i as u64, SeqCst);
        t[ROW * i].store(3, SeqCst);
    }
}
#[inline(never)]
fn submits_full(t: &[AtomicU64], first: usize) {
    for i in first..first + 256 {
        for word in 1..=4 {
            t[ROW * i + word].store(i as u64, SeqCst);
        }
        t[ROW * i].store(3, SeqCst);
    }
}
#[inline(never)]
fn submits_release(t: &[AtomicU64], first: usize) {
    for i in first..first + 256 {
        store_body(t, i, i as u64, Relaxed);
        t[ROW * i].store(3, Release);
    }
}
#[inline(never)]
fn submits_one_seqcst(t: &[AtomicU64], first: usize) {
    for i in first..first + 256 {
        store_body(t, i, i as u64, Relaxed);
        t[ROW * i].store(3, SeqCst);
    }
}
// A turn whose row is known: unit word, head, claim, body, exchange of the claim; exchange of the unit word.
#[inline(never)]
fn turns_bare(t: &[AtomicU64], n: usize) -> u64 {
    let mut s = 0;
    for i in 0..n {
        let u = ROW * 512 + i;
        s += t[u].load(SeqCst)
            + t[ROW * i].load(SeqCst)
            + t[ROW * i + CLAIM].load(SeqCst)
            + load_body(t, i, SeqCst);
        s += t[ROW * i + CLAIM]
            .compare_exchange(0, 1, SeqCst, SeqCst)
            .is_ok() as u64
            + t[u].compare_exchange(0, 1, SeqCst, SeqCst).is_ok() as u64;
    }
    s
}
#[inline(never)]
fn turns(t: &[AtomicU64], n: usize) -> u64 {
    let mut s = 0;
    for i in 0..n {
        let (u, o) = (ROW * 512 + i, 256 + i);
        s += t[u].load(SeqCst)
            + t[ROW * i].load(SeqCst)
            + t[ROW * i + CLAIM].load(SeqCst)
            + load_body(t, i, SeqCst);
        s += t[ROW * i + CLAIM]
            .compare_exchange(0, 1, SeqCst, SeqCst)
            .is_ok() as u64;
        store_body(t, o, s, SeqCst);
        t[ROW * o].store(3, SeqCst);
        s += t[u].compare_exchange(0, 1, SeqCst, SeqCst).is_ok() as u64;
    }
    s
}
#[inline(never)]
fn turns_relaxed(t: &[AtomicU64], n: usize) -> u64 {
    let mut s = 0;
    for i in 0..n {
        let (u, o) = (ROW * 512 + i, 256 + i);
        s += t[u].load(Acquire)
            + t[ROW * i].load(Acquire)
            + t[ROW * i + CLAIM].load(Acquire)
            + load_body(t, i, Relaxed);
        s += t[ROW * i + CLAIM]
            .compare_exchange(0, 1, AcqRel, Acquire)
            .is_ok() as u64;
        store_body(t, o, s, Relaxed);
        t[ROW * o].store(3, Release);
        s += t[u].compare_exchange(0, 1, AcqRel, Acquire).is_ok() as u64;
    }
    s
}
#[inline(never)]
fn reads(t: &[AtomicU64]) -> u64 {
    let mut s = 0;
    for i in 0..256 {
        s += t[ROW * i].load(SeqCst) + load_body(t, i, SeqCst) + t[ROW * i + CLAIM].load(SeqCst);
    }
    s
}
#[inline(never)]
fn kills(t: &[AtomicU64]) -> u64 {
    let mut s = 0;
    for i in 0..256 {
        s += t[ROW * i].load(SeqCst)
            + t[ROW * i + CLAIM].load(SeqCst)
            + t[ROW * i + CLAIM]
                .compare_exchange(0, 2, SeqCst, SeqCst)
                .is_ok() as u64;
    }
    s
}
// A scan that finds nothing: the first head of each of 32 parts.
#[inline(never)]
fn parts(t: &[AtomicU64], stage: u64) -> u64 {
    (0..32)
        .map(|c| (t[ROW * 256 * c].load(SeqCst) >> 1 & 15 == stage) as u64)
        .sum()
}
// A scan over n finished rows: head, claim and unit word of each.
#[inline(never)]
fn done_rows(t: &[AtomicU64], n: usize) -> u64 {
    let mut s = 0;
    for i in 0..n {
        if t[ROW * i].load(SeqCst) != 0 {
            let c = t[ROW * i + CLAIM].load(SeqCst);
            if t[ROW * 8192 + (c >> 5) as usize].load(SeqCst) & 3 != 1 {
                s += 1;
            }
        }
    }
    s
}

fn small() {
    let t = table(ROW * 512 + 2048);
    timed!("submit", 0, 256, submits_seqcst(&t, 0));
    timed!("read_waiting", 0, 256, reads(&t));
    timed!("kill_waiting", 0, 256, kills(&t));
    timed!("read_killed", 0, 256, reads(&t));
    let t = table(ROW * 512 + 2048);
    timed!("submit_full", 0, 256, submits_full(&t, 0));
    let t = table(ROW * 512 + 2048);
    timed!("submit_relaxed_release", 0, 256, submits_release(&t, 0));
    let t = table(ROW * 512 + 2048);
    timed!("submit_one_seqcst", 0, 256, submits_one_seqcst(&t, 0));
    for k in 0..16 {
        let t = table(ROW * 512 + 2048);
        timed!("turn_bare", k * 16, 16, turns_bare(&t, 16));
    }
    for k in 0..16 {
        let t = table(ROW * 512 + 2048);
        timed!("turn", k * 16, 16, turns(&t, 16));
    }
    for k in 0..16 {
        let t = table(ROW * 512 + 2048);
        timed!("turn_relaxed", k * 16, 16, turns_relaxed(&t, 16));
    }
}
fn large() {
    let t = timed_make();
    black_box(parts(&t, 0));
    timed!(
        "idle_empty",
        0,
        8,
        (0..8).map(|s| black_box(parts(&t, s))).sum::<u64>()
    );
    timed!(
        "next_error_empty",
        0,
        8,
        (0..8).map(|s| black_box(parts(&t, s))).sum::<u64>()
    );
    for i in 0..8192 {
        t[ROW * i].store(3, SeqCst);
        t[ROW * i + CLAIM].store((i as u64) << 5 | 9, SeqCst);
        t[ROW * 8192 + i].store(1, SeqCst);
    }
    timed!(
        "next_error_8192_done",
        0,
        8,
        (0..8).map(|_| black_box(done_rows(&t, 8192))).sum::<u64>()
    );
}
fn timed_make() -> Vec<AtomicU64> {
    let s = Instant::now();
    let t = black_box(table(ROW * 8192 + 32 * 1024 + 32));
    show("make_largest", 0, s.elapsed().as_nanos(), 1);
    t
}
fn race() {
    for n in [1usize, 2, 4] {
        let t = table(ROW * 16 * 256);
        let gate = AtomicU64::new(0);
        let zero = Instant::now();
        let spans: Vec<(u128, u128)> = thread::scope(|s| {
            (0..n)
                .map(|w| {
                    let (t, gate) = (&t, &gate);
                    s.spawn(move || {
                        gate.fetch_add(1, SeqCst);
                        while gate.load(SeqCst) < n as u64 {}
                        let b = zero.elapsed().as_nanos();
                        for j in 0..4 {
                            submits_seqcst(t, (w * 4 + j) * 256);
                        }
                        (b, zero.elapsed().as_nanos())
                    })
                })
                .collect::<Vec<_>>()
                .into_iter()
                .map(|h| h.join().unwrap())
                .collect()
        });
        show(
            "submit_threads",
            n as u64,
            spans.iter().map(|s| s.1).max().unwrap() - spans.iter().map(|s| s.0).min().unwrap(),
            n as u64 * 1024,
        );
    }
}
fn main() {
    let rounds: u32 = std::env::args()
        .nth(1)
        .and_then(|w| w.parse().ok())
        .unwrap_or(1);
    for _ in 0..rounds {
        for _ in 0..4 {
            small();
        }
        large();
        race();
    }
}
