//! units KIND ADDRESS CLIENTS SECONDS: clients of a server, each of which does one unit of work after another and waits for each answer
//! before it sends the next line. ADDRESS is a path, or a port of this machine. Prints a line: units a second, and after how many
//! microseconds half of the units were over, and 99 of 100.
//!
//! KIND is `session` (submit, claim, commit with a reply, collect; the workers w0, w1, .. are there) or `beanstalkd` (put, reserve,
//! delete).
use std::io::{self, BufRead, BufReader, Error, Read, Write};
use std::net::TcpStream;
use std::os::unix::net::UnixStream;
use std::sync::atomic::{AtomicBool, Ordering};
use std::sync::Barrier;
use std::thread;
use std::time::{Duration, Instant};

const WARM_UP: Duration = Duration::from_millis(300);

struct Peer {
    to: Box<dyn Write>,
    from: BufReader<Box<dyn Read>>,
}

impl Peer {
    fn dial(address: &str) -> io::Result<Peer> {
        let (to, from): (Box<dyn Write>, Box<dyn Read>) = match address.parse::<u16>() {
            Ok(port) => {
                let it = TcpStream::connect(("127.0.0.1", port))?;
                it.set_nodelay(true)?;
                (Box::new(it.try_clone()?), Box::new(it))
            }
            Err(_) => {
                let it = UnixStream::connect(address)?;
                (Box::new(it.try_clone()?), Box::new(it))
            }
        };
        Ok(Peer { to, from: BufReader::new(from) })
    }

    /// The words of the answer, which has this one among them.
    fn ask(&mut self, line: &str, word: &str) -> io::Result<Vec<String>> {
        self.to.write_all(line.as_bytes())?;
        let mut answer = String::new();
        self.from.read_line(&mut answer)?;
        let words: Vec<String> = answer.split_whitespace().map(String::from).collect();
        if words.iter().any(|it| it == word) {
            Ok(words)
        } else {
            Err(Error::other(format!("{line:?} was answered {answer:?}")))
        }
    }

    fn unit(&mut self, kind: &str, at: usize) -> io::Result<()> {
        if kind == "session" {
            self.ask("submit 1 7 100\n", "submitted")?;
            let work = self.ask(&format!("claim w{at}\n"), "work")?;
            self.ask(&format!("commit w{at} ={}:{} 15:7:100\n", work[2], work[12]), "done")?;
            let told = self.ask(&format!("collect {}\n", work[8]), "collected")?;
            return if told.len() == 3 { Ok(()) } else { Err(Error::other(told.join(" "))) };
        }
        self.ask("put 1 0 60 16\r\n0123456789abcdef\r\n", "INSERTED")?;
        let work = self.ask("reserve\r\n", "RESERVED")?;
        self.from.read_line(&mut String::new())?;
        self.ask(&format!("delete {}\r\n", work[1]), "DELETED").map(|_| ())
    }
}

fn main() {
    let words: Vec<String> = std::env::args().skip(1).collect();
    let (kind, address) = (&words[0], &words[1]);
    let many: usize = words[2].parse().expect("a number of clients");
    let seconds: f64 = words[3].parse().expect("seconds");
    let (all, is_over, is_counted) = (Barrier::new(many + 1), AtomicBool::new(false), AtomicBool::new(false));
    let (mut took, mut lasted) = (Vec::new(), 0.0);
    thread::scope(|scope| {
        let clients: Vec<_> = (0..many)
            .map(|at| {
                let (all, is_over, is_counted) = (&all, &is_over, &is_counted);
                scope.spawn(move || {
                    let (mut peer, mut took) = (Peer::dial(address).expect("a server"), Vec::new());
                    all.wait();
                    while !is_over.load(Ordering::Relaxed) {
                        let since = Instant::now();
                        peer.unit(kind, at).expect("its answers");
                        if is_counted.load(Ordering::Relaxed) {
                            took.push(since.elapsed().as_secs_f64() * 1e6);
                        }
                    }
                    took
                })
            })
            .collect();
        all.wait();
        thread::sleep(WARM_UP);
        is_counted.store(true, Ordering::Relaxed);
        let begun = Instant::now();
        thread::sleep(Duration::from_secs_f64(seconds));
        is_counted.store(false, Ordering::Relaxed);
        lasted = begun.elapsed().as_secs_f64();
        is_over.store(true, Ordering::Relaxed);
        took = clients.into_iter().flat_map(|it| it.join().expect("no fault")).collect();
    });
    took.sort_by(f64::total_cmp);
    let of = |share: f64| took[((took.len() - 1) as f64 * share) as usize];
    println!("{:.0} {:.0} {:.0}", took.len() as f64 / lasted, of(0.5), of(0.99));
}
