//! load KIND ADDRESS CLIENTS AT_ONCE SECONDS PROCESS..: clients of a server, each of which sends so many lines at once and waits for
//! their answers. ADDRESS is a path, or a port of this machine. Prints a line: answers a second, after how many microseconds half of
//! the exchanges were over, and 99 and 999 of 1,000, and the microseconds of a processor that each PROCESS took for an answer.
//!
//! KIND is what they send: `read` (a session), `redis`, `beanstalkd`, or any other line of a session.
#[path = "../../server/src/sys.rs"]
#[allow(dead_code)]
mod sys;

use std::io::{Read, Write};
use std::net::TcpStream;
use std::os::fd::AsRawFd;
use std::os::unix::net::UnixStream;
use std::time::{Duration, Instant};

const WARM_UP: Duration = Duration::from_millis(300);

/// What one exchange is, and how many line ends its answer has.
fn exchange_of(kind: &str) -> (Vec<u8>, usize) {
    match kind {
        "redis" => (b"*2\r\n$3\r\nGET\r\n$1\r\nk\r\n".to_vec(), 2),
        "beanstalkd" => (b"peek 1\r\n".to_vec(), 2),
        "read" => (b"read 0\n".to_vec(), 1),
        line => (format!("{line}\n").into_bytes(), 1),
    }
}

enum Stream {
    Unix(UnixStream),
    Tcp(TcpStream),
}

impl Stream {
    fn dial(address: &str) -> Stream {
        match address.parse::<u16>() {
            Ok(port) => {
                let it = TcpStream::connect(("127.0.0.1", port)).expect("a server at this port");
                it.set_nodelay(true).expect("no delay");
                Stream::Tcp(it)
            }
            Err(_) => Stream::Unix(UnixStream::connect(address).expect("a server at this path")),
        }
    }
    fn fd(&self) -> i32 {
        match self {
            Stream::Unix(it) => it.as_raw_fd(),
            Stream::Tcp(it) => it.as_raw_fd(),
        }
    }
    fn read(&mut self, some: &mut [u8]) -> usize {
        match self {
            Stream::Unix(it) => it.read(some),
            Stream::Tcp(it) => it.read(some),
        }
        .expect("an answer")
    }
    fn write(&mut self, some: &[u8]) {
        match self {
            Stream::Unix(it) => it.write_all(some),
            Stream::Tcp(it) => it.write_all(some),
        }
        .expect("a server that reads")
    }
}

struct Client {
    stream: Stream,
    come: usize,
    since: Instant,
}

/// Seconds that a process has had of a processor.
fn spent(process: &str) -> f64 {
    let text = std::fs::read_to_string(format!("/proc/{process}/schedstat")).unwrap_or_default();
    text.split(' ').next().and_then(|it| it.parse::<f64>().ok()).unwrap_or(0.0) * 1e-9
}

fn main() {
    let words: Vec<String> = std::env::args().skip(1).collect();
    let number = |at: usize| words[at].parse::<f64>().expect("a number");
    let (exchange, ends) = exchange_of(&words[0]);
    let (many, at_once) = (number(2) as usize, number(3) as usize);
    let sent = exchange.repeat(at_once);
    let poll = sys::Poll::new().expect("epoll");
    let mut clients: Vec<Client> =
        (0..many).map(|_| Client { stream: Stream::dial(&words[1]), come: 0, since: Instant::now() }).collect();
    for (at, it) in clients.iter_mut().enumerate() {
        poll.add(it.stream.fd(), sys::READABLE, at as u64).expect("epoll");
        it.since = Instant::now();
        it.stream.write(&sent);
    }
    let begin = Instant::now() + WARM_UP;
    let end = begin + Duration::from_secs_f64(number(4));
    let (mut took, mut before, mut some) = (Vec::new(), Vec::new(), vec![0; 1 << 17]);
    let mut events = vec![sys::Event::default(); 1024];
    while Instant::now() < end {
        let now = Instant::now();
        if before.is_empty() && now >= begin {
            before = words[5..].iter().map(|it| spent(it)).collect();
            before.push(0.0);
        }
        for event in 0..poll.wait(&mut events, 1000) {
            let it = &mut clients[events[event].token as usize];
            let read = it.stream.read(&mut some);
            it.come += some[..read].iter().filter(|it| **it == b'\n').count();
            if it.come == at_once * ends {
                let now = Instant::now();
                if now >= begin {
                    took.push((now - it.since).as_secs_f64() * 1e6);
                }
                (it.come, it.since) = (0, now);
                it.stream.write(&sent);
            }
        }
    }
    took.sort_by(f64::total_cmp);
    let of = |share: f64| took[((took.len() - 1) as f64 * share) as usize];
    let answers = (took.len() * at_once) as f64;
    print!("{:.0} {:.0} {:.0} {:.0}", answers / (end - begin).as_secs_f64(), of(0.5), of(0.99), of(0.999));
    for (it, before) in words[5..].iter().zip(&before) {
        print!(" {:.2}", (spent(it) - before) * 1e6 / answers);
    }
    println!();
}
