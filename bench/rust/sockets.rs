// Enqueue, dequeue and acknowledge over a loopback socket. Arguments: WHICH PORT COUNT BATCH, where WHICH is beanstalkd (put,
// reserve, delete), stream (redis: XADD, XREADGROUP, XACK) or list (redis: LPUSH, LMOVE, LREM). BATCH commands of one kind are
// sent at once, and then their answers are read; 1 is a round trip for each. Prints the nanoseconds that the three take together,
// the least of five runs.
use std::env;
use std::fmt::Write as _;
use std::io::{self, BufRead, BufReader, Error, Read, Write};
use std::net::TcpStream;
use std::time::Instant;

struct Peer {
    to: TcpStream,
    from: BufReader<TcpStream>,
}

impl Peer {
    fn connect(port: u16) -> io::Result<Peer> {
        let to = TcpStream::connect(("127.0.0.1", port))?;
        to.set_nodelay(true)?;
        let from = BufReader::new(to.try_clone()?);
        Ok(Peer { to, from })
    }

    fn line(&mut self) -> io::Result<String> {
        let mut line = String::new();
        self.from.read_line(&mut line)?;
        Ok(line.trim_end().to_string())
    }

    fn bytes(&mut self, count: usize) -> io::Result<String> {
        let mut bytes = vec![0; count + 2];
        self.from.read_exact(&mut bytes)?;
        bytes.truncate(count);
        String::from_utf8(bytes).map_err(|_| Error::other("no text"))
    }

    // An answer of redis: the last text in it that has a dash, which is the id of an entry.
    fn redis(&mut self) -> io::Result<Option<String>> {
        let line = self.line()?;
        let (kind, rest) = line.split_at(1);
        match kind {
            "*" => {
                let mut id = None;
                for _ in 0..rest.parse().unwrap_or(0) {
                    id = self.redis()?.or(id);
                }
                Ok(id)
            }
            "$" => match rest.parse() {
                Ok(count) => Ok(Some(self.bytes(count)?).filter(|it| it.contains('-'))),
                Err(_) => Ok(None),
            },
            "-" => Err(Error::other(line)),
            _ => Ok(None),
        }
    }

    fn beanstalkd(&mut self) -> io::Result<Option<String>> {
        let line = self.line()?;
        let words: Vec<&str> = line.split(' ').collect();
        if words[0] == "RESERVED" && words.len() == 3 {
            self.bytes(words[2].parse().map_err(Error::other)?)?;
            return Ok(Some(words[1].to_string()));
        }
        Ok(None)
    }

    // Sends a command for each of the texts, then reads the answers, and tells the ids that they name.
    fn ask(
        &mut self,
        which: &str,
        texts: &[String],
        command: impl Fn(&str) -> String,
    ) -> io::Result<Vec<String>> {
        let mut out = String::new();
        for it in texts {
            out.write_str(&command(it)).map_err(Error::other)?;
        }
        self.to.write_all(out.as_bytes())?;
        let mut ids = Vec::new();
        for _ in texts {
            ids.extend(if which == "beanstalkd" {
                self.beanstalkd()?
            } else {
                self.redis()?
            });
        }
        Ok(ids)
    }

    fn round(&mut self, which: &str, names: &[String]) -> io::Result<()> {
        match which {
            "beanstalkd" => {
                self.ask(which, names, |_| {
                    "put 1 0 60 16\r\n0123456789abcdef\r\n".into()
                })?;
                let ids = self.ask(which, names, |_| "reserve\r\n".into())?;
                assert_eq!(ids.len(), names.len());
                self.ask(which, &ids, |id| format!("delete {id}\r\n"))?;
            }
            "stream" => {
                self.ask(which, names, |_| "XADD s * k 0 a 0123456789\r\n".into())?;
                let ids = self.ask(which, names, |_| {
                    "XREADGROUP GROUP g c COUNT 1 STREAMS s >\r\n".into()
                })?;
                assert_eq!(ids.len(), names.len());
                self.ask(which, &ids, |id| format!("XACK s g {id}\r\n"))?;
            }
            _ => {
                self.ask(which, names, |name| format!("LPUSH q {name}\r\n"))?;
                self.ask(which, names, |_| "LMOVE q w RIGHT LEFT\r\n".into())?;
                self.ask(which, names, |name| format!("LREM w 1 {name}\r\n"))?;
            }
        }
        Ok(())
    }
}

fn main() -> io::Result<()> {
    let words: Vec<String> = env::args().skip(1).collect();
    let [which, port, count, batch] = &words[..] else {
        eprintln!("sockets WHICH PORT COUNT BATCH");
        std::process::exit(64);
    };
    let number = |text: &String| text.parse::<usize>().map_err(Error::other);
    let (count, batch) = (number(count)?, number(batch)?);
    let mut peer = Peer::connect(number(port)? as u16)?;
    if which == "stream" {
        peer.ask(
            which,
            &["DEL s".into(), "XGROUP CREATE s g $ MKSTREAM".into()],
            |it| format!("{it}\r\n"),
        )?;
    } else if which == "list" {
        peer.ask(which, &["DEL q w".into()], |it| format!("{it}\r\n"))?;
    }
    let names: Vec<String> = (0..batch).map(|it| format!("e{it}")).collect();
    let mut least = f64::INFINITY;
    for _ in 0..5 {
        let begun = Instant::now();
        for _ in 0..count / batch {
            peer.round(which, &names)?;
        }
        least = least.min(begun.elapsed().as_nanos() as f64 / (count / batch * batch) as f64);
    }
    println!("{least:.0}");
    Ok(())
}
