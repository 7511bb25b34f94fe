//! The calls of the crate, timed as `tp_bench` times those of the manager (bench/run). Prints NAME K NANOSECONDS CALLS.

use covetrivet::{Caller, Draft, Limits, Manager};
use std::sync::atomic::{AtomicUsize, Ordering::SeqCst};
use std::thread;
use std::time::Instant;

fn timed(name: &str, k: u64, calls: u64, work: impl FnOnce() -> u64) {
    let since = Instant::now();
    assert_eq!(work(), calls);
    println!("{name} {k} {} {calls}", since.elapsed().as_nanos());
}

fn submits(me: &mut Caller, stage: u8) -> u64 {
    (0..256).filter(|&k| me.submit(stage, [0, k, 0, 0]).is_ok()).count() as u64
}

fn turns(me: &mut Caller, stage: u8, n: u64, bare: bool) -> u64 {
    (0..n)
        .filter(|_| match me.claim(stage) {
            Ok(Some(work)) => {
                let draft = [Draft::reply(work.element().body)];
                work.commit(if bare { &[] } else { &draft }).is_ok()
            }
            _ => false,
        })
        .count() as u64
}

fn small() {
    let limits = Limits { parts: 2, rows: 256, units: 1024, spare: 0, attempts: 7 };
    let manager = Manager::new(limits).unwrap();
    let (mut a, mut b) = (manager.open().unwrap(), manager.open().unwrap());
    timed("submit", 0, 256, || submits(&mut a, 1));
    timed("submit_full", 0, 256, || (0..256).filter(|&k| b.submit(2, [7, k, 7, 7]).is_ok()).count() as u64);
    timed("read_waiting", 0, 256, || (0..256).filter(|&id| a.read(id).is_ok()).count() as u64);
    timed("kill_waiting", 0, 256, || (0..256).filter(|&id| a.kill(id).is_ok()).count() as u64);
    for bare in [true, false] {
        let manager = Manager::new(limits).unwrap();
        let (mut a, mut b) = (manager.open().unwrap(), manager.open().unwrap());
        submits(&mut a, 1);
        for k in 0..16 {
            timed(if bare { "turn_bare" } else { "turn" }, k * 16, 16, || turns(&mut b, 1, 16, bare));
        }
    }
}

fn race(name: &str, threads: usize, bare: bool, own: bool) {
    let manager = Manager::new(Limits { parts: 16, rows: 256, units: 1024, spare: 0, attempts: 3 }).unwrap();
    let mut callers: Vec<Caller> = (0..16).map(|_| manager.open().unwrap()).collect();
    let (clients, servers) = callers.split_at_mut(4);
    let stage = |k: usize| if own { 1 + k as u8 } else { 1 };
    for (k, client) in clients.iter_mut().take(threads).enumerate() {
        submits(client, stage(k));
    }
    let (gate, zero) = (AtomicUsize::new(0), Instant::now());
    let spans: Vec<_> = thread::scope(|scope| {
        let started: Vec<_> = servers[..threads]
            .iter_mut()
            .enumerate()
            .map(|(k, server)| {
                let (gate, zero) = (&gate, &zero);
                scope.spawn(move || {
                    gate.fetch_add(1, SeqCst);
                    while gate.load(SeqCst) < threads {}
                    let began = zero.elapsed().as_nanos();
                    let done = turns(server, stage(k), 256, bare);
                    (began, zero.elapsed().as_nanos(), done)
                })
            })
            .collect();
        started.into_iter().map(|it| it.join().unwrap()).collect()
    });
    let (began, ended) = (spans.iter().map(|it| it.0).min().unwrap(), spans.iter().map(|it| it.1).max().unwrap());
    println!("{name} {threads} {} {}", ended - began, spans.iter().map(|it| it.2).sum::<u64>());
}

fn main() {
    for _ in 0..4 {
        small();
    }
    for threads in [1, 2, 4] {
        race("turn_own", threads, false, true);
        race("turn_bare_own", threads, true, true);
        if threads > 1 {
            race("turn_shared", threads, false, false);
            race("turn_bare_shared", threads, true, false);
        }
    }
}
