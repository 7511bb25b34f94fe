// What a live session costs over the two pipes of a child process. Arguments: WHICH COUNT BATCH PROGRAM [WORD..].
//
//   echo    lines of 20 bytes to a program that gives each back, as cat does: the nanoseconds of one line
//   read    the command `read 0` to a live session: the nanoseconds of one command
//   pass    an element put, taken and acknowledged with a reply (submit, claim, commit) in a live session: those of the three together
//
// BATCH lines are sent at once, and then their answers are read; 1 is a round trip for each. Prints the least of five runs. A worker
// has one element at a time, so claims and commits are sent for as many as there are workers: BATCH, and at most 20.
// With the words --journal FILE each run begins a journal: what is there of this name is removed. A PROGRAM unix:PATH is a server at this
// socket, whose session has the workers already.
use std::env;
use std::fs;
use std::io::{self, BufRead, BufReader, Error, Read, Write};
use std::os::unix::net::UnixStream;
use std::process::{Child, Command, Stdio};
use std::time::Instant;

struct Peer {
    child: Option<Child>,
    to: Option<Box<dyn Write>>,
    from: BufReader<Box<dyn Read>>,
}

impl Peer {
    fn start(words: &[String]) -> io::Result<Peer> {
        if let Some(path) = words[0].strip_prefix("unix:") {
            let socket = UnixStream::connect(path)?;
            let to: Box<dyn Write> = Box::new(socket.try_clone()?);
            return Ok(Peer { child: None, to: Some(to), from: BufReader::new(Box::new(socket)) });
        }
        let journal = words.iter().position(|word| word == "--journal").and_then(|at| words.get(at + 1));
        if let Some(file) = journal {
            let _ = fs::remove_file(file);
        }
        let mut child = Command::new(&words[0]).args(&words[1..]).stdin(Stdio::piped()).stdout(Stdio::piped()).spawn()?;
        let to: Box<dyn Write> = Box::new(child.stdin.take().ok_or(Error::other("no input"))?);
        let from: Box<dyn Read> = Box::new(child.stdout.take().ok_or(Error::other("no output"))?);
        let mut peer = Peer { child: Some(child), to: Some(to), from: BufReader::new(from) };
        if journal.is_some() {
            peer.ask("", 1, "recovered 0")?;
        }
        Ok(peer)
    }

    fn send(&mut self, lines: &str) -> io::Result<()> {
        self.to.as_mut().ok_or(Error::other("no input"))?.write_all(lines.as_bytes())
    }

    // Sends lines at once, and reads as many answers, each of which holds this word.
    fn ask(&mut self, lines: &str, count: usize, word: &str) -> io::Result<()> {
        self.send(lines)?;
        let mut line = String::new();
        for _ in 0..count {
            line.clear();
            if self.from.read_line(&mut line)? == 0 || !line.contains(word) {
                return Err(Error::other(format!("answered {line}")));
            }
        }
        Ok(())
    }

    fn end(mut self) -> io::Result<()> {
        self.to = None;
        self.child.map_or(Ok(()), |mut child| child.wait().map(|_| ()))
    }
}

// The nanoseconds of one line, of one command, or of one element.
fn measure(which: &str, count: usize, batch: usize, words: &[String]) -> io::Result<u128> {
    let mut peer = Peer::start(words)?;
    let workers = batch.min(20);
    let names: Vec<String> = (0..workers).map(|at| format!("w{}", char::from(b'a' + at as u8))).collect();
    match which {
        _ if words[0].starts_with("unix:") => {}
        "echo" => {}
        "read" => peer.ask("submit 1 7 100\n", 1, "submitted")?,
        _ => {
            for name in &names {
                peer.send(&format!("worker {name} 1\n"))?;
            }
            peer.ask("count\n", 1, "waiting")?;
        }
    }
    let repeated = |line: &str| line.repeat(batch);
    let each = |what: &dyn Fn(&String) -> String| names.iter().map(what).collect::<String>();
    let begun = Instant::now();
    for _ in 0..count / batch {
        match which {
            "echo" => peer.ask(&repeated("submit 1 7 100 3456\n"), batch, "submit")?,
            "read" => peer.ask(&repeated("read 0\n"), batch, "waiting")?,
            _ => {
                peer.ask(&repeated("submit 1 7 100\n"), batch, "submitted")?;
                for _ in 0..batch / workers {
                    peer.ask(&each(&|name| format!("claim {name}\n")), workers, "work")?;
                    peer.ask(&each(&|name| format!("commit {name} 15:7:100\n")), workers, "done")?;
                }
            }
        }
    }
    let taken = begun.elapsed().as_nanos() / (count / batch * batch) as u128;
    peer.end()?;
    Ok(taken)
}

fn main() -> io::Result<()> {
    let words: Vec<String> = env::args().skip(1).collect();
    let number = |at: usize| words.get(at).and_then(|it: &String| it.parse().ok()).ok_or(Error::other("a number is missing"));
    let (count, batch) = (number(1)?, number(2)?);
    let mut least = u128::MAX;
    for _ in 0..5 {
        least = least.min(measure(&words[0], count, batch, &words[3..])?);
    }
    println!("{least}");
    Ok(())
}
