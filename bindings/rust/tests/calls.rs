//! Each call once, each misuse once, and four threads.

use covetrivet::{Draft, Error, Limits, Manager, Status};
use std::sync::atomic::{AtomicBool, Ordering};
use std::thread;

const SMALL: Limits = Limits { parts: 2, rows: 4, units: 8, spare: 1, attempts: 1 };

fn is_send<T: Send>() {}
fn is_sync<T: Sync>() {}

#[test]
fn types_go_to_threads() {
    is_send::<Manager>();
    is_sync::<Manager>();
    is_send::<covetrivet::Caller>();
    is_send::<Error>();
    let parts = env!("CARGO_PKG_VERSION").split('.').map(|it| it.parse::<u32>().unwrap());
    assert_eq!(covetrivet::version(), parts.fold(0, |so_far, part| 1_000 * so_far + part));
}

#[test]
fn limits_are_tested() {
    let made = Manager::new(SMALL).unwrap();
    assert_eq!((made.limits(), made.capacity()), (SMALL, 16));
    for bad in [
        Limits { parts: 0, ..SMALL },
        Limits { parts: 33, ..SMALL },
        Limits { rows: 257, ..SMALL },
        Limits { units: 1025, ..SMALL },
        Limits { spare: 257, ..SMALL },
        Limits { attempts: 8, ..SMALL },
    ] {
        assert_eq!(Manager::new(bad).err(), Some(Error::BadLimits));
    }
}

#[test]
fn one_element_goes_through() {
    let manager = Manager::new(SMALL).unwrap();
    let (mut client, mut server) = (manager.open().unwrap(), manager.open().unwrap());
    assert_eq!(manager.open().err(), Some(Error::NoPart));
    assert_eq!((client.number(), server.number()), (0, 1));
    assert_eq!(client.submit(0, [0; 4]), Err(Error::BadStage));
    let root = client.submit(3, [1, 2, 3, 4]).unwrap();
    assert_eq!(client.rounds(root), Ok(0));
    let mut work = server.claim(3).unwrap().unwrap();
    assert_eq!((work.element().id, work.element().body, work.attempt()), (root, [1, 2, 3, 4], 1));
    assert_eq!(work.element().by, None);
    let other = work.submit(5, [0; 4]).unwrap();
    assert_eq!((work.read(other).unwrap().status, work.rounds(other)), (Status::Waiting { attempts: 0 }, Ok(0)));
    assert_eq!((work.reply(root, 0), work.next_error(0), work.room().units), (None, None, 7));
    assert_eq!((work.family(root, 0).unwrap().element.id, work.requeue(other)), (root, Err(Error::NotParked)));
    work.leave();
    assert!(server.has_open());
    assert_eq!(server.claim(3).err(), Some(Error::Busy));
    assert_eq!(server.kill(root), Err(Error::Busy));
    let work = server.in_hand(root).unwrap().unwrap();
    assert_eq!(client.read(root).unwrap().status, Status::Held { unit: work.unit(), attempt: 1 });
    let born = work.commit(&[Draft::reply([9, 0, 0, 0]), Draft::new(4, [8, 0, 0, 0])]).unwrap();
    assert_eq!(born.len(), 2);
    assert_eq!(client.reply(root, 0), Some(born.start));
    assert_eq!(client.collect_next(root).unwrap().unwrap().body[0], 9);
    assert_eq!(client.collect_next(root), Ok(None));
    assert_eq!(client.collect(born.start), Err(Error::AlreadyKilled));
    assert_eq!(client.family(root, root + 1).unwrap().element.root, root);
    assert_eq!(client.cancel(root), Ok(1));
    assert_eq!(client.cancel(77), Err(Error::NotThere));
    assert_eq!(client.kill(other), Ok(0));
    assert_eq!(client.meet(&mut server), Ok(()));
    assert_eq!(client.room().rows, 3);
    manager.hand_back(server).ok().unwrap();
    assert_eq!(manager.account().err(), Some(Error::NotAll));
    manager.hand_back(client).ok().unwrap();
    manager.gather().unwrap();
    let account = manager.account().unwrap();
    assert_eq!((account.total.consumed, account.total.killed, account.total.waiting), (1, 3, 0));
    assert_eq!((account.stages[2].consumed, account.stages[3].killed, account.stages[14].killed), (1, 1, 1));
}

#[test]
fn dropped_work_is_aborted() {
    let manager = Manager::new(SMALL).unwrap();
    let mut caller = manager.open().unwrap();
    let id = caller.submit(1, [0; 4]).unwrap();
    drop(caller.claim_id(id).unwrap());
    assert!(!caller.has_open());
    assert_eq!(caller.read(id).unwrap().status, Status::Parked { attempts: 1 });
    assert_eq!(caller.next_error(0), Some(id));
    assert_eq!(caller.requeue(id), Ok(1));
    let refused = caller.claim(1).unwrap().unwrap().commit(&[Draft::new(16, [0; 4])]);
    assert_eq!(refused, Err(Error::BadDraft));
    assert_eq!(caller.read(id).unwrap().status, Status::Parked { attempts: 1 });
    caller.requeue(id).unwrap();
    assert_eq!(caller.claim_next(1).unwrap().unwrap().commit(&[Draft::reply([0; 4]); 5]), Err(Error::TooMany));
    caller.requeue(id).unwrap();
    std::mem::forget(caller.claim(1).unwrap());
    assert_eq!(caller.abort(), Ok(()));
    assert_eq!(caller.abort(), Err(Error::NoOpen));
    assert_eq!(caller.requeue(id), Err(Error::NoRound));
}

#[test]
fn full_is_told_apart_from_a_loss() {
    let manager = Manager::new(Limits { parts: 2, rows: 1, units: 8, spare: 0, attempts: 7 }).unwrap();
    let (mut a, mut b) = (manager.open().unwrap(), manager.open().unwrap());
    let id = a.submit(1, [0; 4]).unwrap();
    let drafts = [Draft::new(2, [0; 4]); 2];
    assert_eq!(b.claim(1).unwrap().unwrap().commit(&drafts), Err(Error::Full));
    assert_eq!(a.read(id).unwrap().status, Status::Waiting { attempts: 1 });
    let work = b.claim(1).unwrap().unwrap();
    a.kill(id).unwrap();
    assert_eq!(work.commit(&drafts), Err(Error::FullLost));
    assert_eq!(a.read(id).unwrap().status, Status::Killed);
}

#[test]
fn another_managers_caller_comes_back() {
    let (one, two) = (Manager::new(SMALL).unwrap(), Manager::new(SMALL).unwrap());
    let (mut a, mut b) = (one.open().unwrap(), two.open().unwrap());
    assert_eq!(a.meet(&mut b), Err(Error::OtherManager));
    let (b, error) = one.hand_back(b).err().unwrap();
    assert_eq!(error, Error::OtherManager);
    two.hand_back(b).ok().unwrap();
    drop(one);
    assert_eq!(a.submit(1, [0; 4]), Ok(0));
}

#[test]
fn dropped_callers_come_home() {
    let manager = Manager::new(SMALL).unwrap();
    let id = {
        let mut early = manager.open().unwrap();
        let id = early.submit(1, [0; 4]).unwrap();
        early.claim(1).unwrap().unwrap().leave();
        id
    };
    let lost = thread::scope(|scope| {
        scope.spawn(|| {
            let _caller = manager.open_number(1).unwrap();
            panic!("as it should: its caller comes home");
        }).join()
    });
    assert!(lost.is_err());
    assert_eq!(manager.account().unwrap().total.held, 1);
    let mut again = manager.open_number(0).unwrap();
    assert_eq!(again.in_hand(id).unwrap().unwrap().commit(&[]), Ok(0..0));
    drop(manager);
    drop(again);
}

#[test]
fn what_is_alive_goes_on() {
    let manager = Manager::new(Limits { attempts: 2, ..SMALL }).unwrap();
    let mut a = manager.open().unwrap();
    let (_, parked) = (a.submit(1, [1; 4]).unwrap(), a.submit(2, [2; 4]).unwrap());
    a.claim(1).unwrap().unwrap().commit(&[]).unwrap();
    a.claim(2).unwrap().unwrap().abort().unwrap();
    assert_eq!(manager.succeed(), Err(Error::NotAll));
    manager.hand_back(a).ok().unwrap();
    let wider = Limits { rows: 100, attempts: 2, ..SMALL };
    assert_eq!(manager.roll_over(SMALL), Err(Error::BadLimits));
    let moved = manager.roll_over(wider).unwrap();
    assert_eq!(moved.len(), 1);
    assert_eq!((moved[0].old, moved[0].old_root), (parked, parked));
    assert_eq!(manager.limits(), wider);
    let mut a = manager.open().unwrap();
    let look = a.read(moved[0].new).unwrap();
    assert_eq!((look.element.body, look.element.stage, look.status), ([2; 4], 2, Status::Waiting { attempts: 1 }));
}

#[test]
fn what_is_in_hand_goes_on_in_the_same_hand() {
    let manager = Manager::new(SMALL).unwrap();
    let (mut a, mut b) = (manager.open().unwrap(), manager.open().unwrap());
    let (one, two) = (a.submit(1, [1; 4]).unwrap(), a.submit(2, [2; 4]).unwrap());
    b.claim_id(two).unwrap().leave();
    a.claim_id(one).unwrap().leave();
    assert!(a.has_open() && b.has_open());
    assert_eq!(manager.open_number(1).err(), Some(Error::NoPart));
    manager.hand_back(a).ok().unwrap();
    manager.hand_back(b).ok().unwrap();
    assert_eq!(manager.roll_over(Limits { parts: 1, ..SMALL }), Err(Error::BadLimits));
    let moved = manager.succeed().unwrap();
    let held: Vec<_> = moved.iter().map(|it| (it.old, it.holder())).collect();
    assert_eq!(held, [(one, Some(0)), (two, Some(1))]);
    let mut b = manager.open_number(1).unwrap();
    assert_eq!(b.number(), 1);
    assert!(b.in_hand(moved[0].new).unwrap().is_none());
    assert_eq!(b.in_hand(99).err(), Some(Error::NotThere));
    let work = b.in_hand(moved[1].new).unwrap().unwrap();
    assert_eq!((work.element().body, work.attempt()), ([2; 4], 1));
    work.commit(&[Draft::reply([3; 4])]).unwrap();
    assert_eq!(b.collect_next(moved[1].new_root).unwrap().map(|it| it.body), Some([3; 4]));
    // a unit that another caller aborts before the rollover is over behind it
    b.release(moved[0].new).unwrap();
    manager.hand_back(b).ok().unwrap();
    let mut a = manager.open_number(0).unwrap();
    assert!(a.has_open());
    manager.hand_back(a).ok().unwrap();
    let again = manager.succeed().unwrap();
    assert_eq!((again.len(), again[0].holder()), (1, None));
    a = manager.open_number(0).unwrap();
    assert!(!a.has_open());
    assert_eq!(a.abort(), Err(Error::NoOpen));
}

#[test]
fn four_threads_count_right() {
    let manager = Manager::new(Limits { parts: 4, rows: 256, units: 1024, spare: 0, attempts: 3 }).unwrap();
    let done = AtomicBool::new(false);
    thread::scope(|scope| {
        for stage in 1..=3u8 {
            let (manager, done) = (&manager, &done);
            scope.spawn(move || {
                let mut caller = manager.open().unwrap();
                while !done.load(Ordering::SeqCst) {
                    match caller.claim_next(stage).unwrap() {
                        None => thread::yield_now(),
                        Some(work) => {
                            let [a, b, c, d] = work.element().body;
                            let to = if stage == 3 { covetrivet::REPLIES } else { stage + 1 };
                            work.commit(&[Draft::new(to, [a, b + u64::from(stage), c, d])]).unwrap();
                        }
                    }
                }
                manager.hand_back(caller).ok().unwrap();
            });
        }
        let mut client = manager.open().unwrap();
        let roots: Vec<u32> = (0..200).map(|n| client.submit(1, [n, 0, 0, 0]).unwrap()).collect();
        for (n, root) in (0u64..).zip(roots) {
            let reply = loop {
                match client.collect_next(root).unwrap() {
                    Some(reply) => break reply,
                    None => thread::yield_now(),
                }
            };
            assert_eq!((reply.body[0], reply.body[1]), (n, 6));
        }
        done.store(true, Ordering::SeqCst);
        manager.hand_back(client).ok().unwrap();
    });
    let account = manager.account().unwrap();
    assert_eq!((account.total.consumed, account.total.killed, account.total.waiting), (600, 200, 0));
}
