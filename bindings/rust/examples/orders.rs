//! The order system of examples/library/orders.c on scoped threads.

use covetrivet::{Caller, Draft, Error, Limits, Manager, REPLIES};
use std::collections::BTreeMap;
use std::sync::atomic::{AtomicBool, Ordering};
use std::thread;

const ORDERS: u64 = 200;
const MOST: u64 = 70;

fn serve(me: &mut Caller, stage: u8, closing: &AtomicBool) -> Result<(), Error> {
    while !closing.load(Ordering::SeqCst) {
        let Some(work) = me.claim_next(stage)? else {
            thread::yield_now();
            continue;
        };
        let [number, quantity, price, _] = work.element().body;
        match stage {
            1 => work.commit(&[Draft::new(2, [number, quantity, quantity * (10 + number % 5), 0])])?,
            3 => work.commit(&[Draft::new(REPLIES, [number, quantity, price, 1])])?,
            _ if price <= MOST => work.commit(&[Draft::new(3, [number, quantity, price, 0])])?,
            // dropped, so aborted
            _ => continue,
        };
    }
    Ok(())
}

fn submit_and_collect(client: &mut Caller) -> Result<(u64, u64), Error> {
    let mut waiting = BTreeMap::new();
    for n in 0..ORDERS {
        waiting.insert(client.submit(1, [n, 1 + n % 7, 0, 0])?, n);
    }
    let (mut shipped, mut declined) = (0, 0);
    while !waiting.is_empty() {
        for (root, n) in waiting.clone() {
            if let Some(reply) = client.collect_next(root)? {
                assert_eq!((reply.body[0], reply.body[3]), (n, 1));
                waiting.remove(&root);
                shipped += 1;
            }
        }
        if let Some(parked) = client.next_error(0) {
            waiting.remove(&client.read(parked)?.element.root);
            client.kill(parked)?;
            declined += 1;
        }
        thread::yield_now();
    }
    Ok((shipped, declined))
}

fn main() -> Result<(), Error> {
    let manager = Manager::new(Limits { parts: 4, rows: 256, units: 1024, spare: 0, attempts: 3 })?;
    let closing = AtomicBool::new(false);
    let mut client = manager.open()?;
    let (shipped, declined) = thread::scope(|scope| {
        for stage in 1..=3 {
            let mut server = manager.open()?;
            let (manager, closing) = (&manager, &closing);
            scope.spawn(move || {
                serve(&mut server, stage, closing).expect("the server goes on");
                manager.hand_back(server).ok().expect("it is of this manager");
            });
        }
        let counted = submit_and_collect(&mut client);
        closing.store(true, Ordering::SeqCst);
        counted
    })?;
    manager.hand_back(client).map_err(|(_, error)| error)?;
    let total = manager.account()?.total;
    println!("{ORDERS} orders: {shipped} shipped, {declined} declined");
    println!(
        "waiting {}, held {}, consumed {}, parked {}, killed {}",
        total.waiting, total.held, total.consumed, total.parked, total.killed
    );
    Ok(())
}
