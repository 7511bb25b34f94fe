// Plain queues in the process, of std alone: no units, no undo, no kill, no read, no replies. Prints lines NAME THREADS NANOSECONDS for
// one enqueue and one dequeue: at one thread 256 in and 256 out, at 2 and 4 threads half put and half take; the least of 100 runs.
use std::collections::VecDeque;
use std::sync::atomic::{AtomicUsize, Ordering::SeqCst};
use std::sync::{mpsc, Mutex};
use std::thread;
use std::time::{Duration, Instant};

type Item = (u8, u32, u64, u64);

trait Queue: Sync {
    fn put(&self, item: Item);
    fn take(&self) -> Option<Item>;
}

impl Queue for Mutex<VecDeque<Item>> {
    fn put(&self, item: Item) {
        self.lock().unwrap().push_back(item);
    }
    fn take(&self) -> Option<Item> {
        self.lock().unwrap().pop_front()
    }
}

struct Channel(mpsc::Sender<Item>, Mutex<mpsc::Receiver<Item>>);

impl Queue for Channel {
    fn put(&self, item: Item) {
        self.0.send(item).unwrap();
    }
    fn take(&self) -> Option<Item> {
        self.1.lock().unwrap().try_recv().ok()
    }
}

fn channel() -> Channel {
    let (to, from) = mpsc::channel();
    Channel(to, Mutex::new(from))
}

fn one_thread(queue: &dyn Queue) -> f64 {
    let begun = Instant::now();
    for id in 0..256 {
        queue.put((1, id, 0, 1));
    }
    let sum: u64 = (0..256).map(|_| queue.take().unwrap().3).sum();
    assert_eq!(sum, 256);
    begun.elapsed().as_nanos() as f64 / 256.0
}

fn threads(queue: &dyn Queue, count: usize) -> f64 {
    let (came, zero) = (AtomicUsize::new(0), Instant::now());
    let work = |at: usize| -> (Duration, Duration) {
        came.fetch_add(1, SeqCst);
        while came.load(SeqCst) < count {}
        let begun = zero.elapsed();
        let mut left = 1024;
        while left > 0 {
            if at % 2 == 0 {
                queue.put((1, left, 0, 1));
                left -= 1;
            } else if queue.take().is_some() {
                left -= 1;
            } else {
                std::hint::spin_loop();
            }
        }
        (begun, zero.elapsed())
    };
    let spans: Vec<_> = thread::scope(|scope| {
        let started: Vec<_> = (0..count)
            .map(|at| {
                scope.spawn({
                    let work = &work;
                    move || work(at)
                })
            })
            .collect();
        started.into_iter().map(|it| it.join().unwrap()).collect()
    });
    let first = spans.iter().map(|it| it.0).min().unwrap();
    let last = spans.iter().map(|it| it.1).max().unwrap();
    (last - first).as_nanos() as f64 / (count as f64 / 2.0 * 1024.0)
}

fn main() {
    let kinds: [(&str, fn() -> Box<dyn Queue>); 2] = [
        ("channel", || Box::new(channel())),
        ("mutex_deque", || {
            Box::new(Mutex::new(VecDeque::with_capacity(8192)))
        }),
    ];
    for (name, made) in kinds {
        for count in [1, 2, 4] {
            let run = || {
                if count == 1 {
                    one_thread(&*made())
                } else {
                    threads(&*made(), count)
                }
            };
            let least = (0..100).map(|_| run()).fold(f64::INFINITY, f64::min);
            println!("{name} {count} {least:.1}");
        }
    }
}
