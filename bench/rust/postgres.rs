// A row put in, taken by SKIP LOCKED, one row put out, and the commit of both, over the simple protocol of PostgreSQL. Arguments:
// PORT COUNT SYNC, where SYNC is the session's synchronous_commit, on or off. The server must trust the user postgres. Prints the
// nanoseconds for one element, the least of five runs.
use std::env;
use std::io::{self, Error, Read, Write};
use std::net::TcpStream;
use std::time::Instant;

struct Session(TcpStream);

impl Session {
    fn open(port: u16) -> io::Result<Session> {
        let mut to = TcpStream::connect(("127.0.0.1", port))?;
        to.set_nodelay(true)?;
        let words = b"\0\x03\0\0user\0postgres\0database\0postgres\0\0";
        to.write_all(&(words.len() as u32 + 4).to_be_bytes())?;
        to.write_all(words)?;
        let mut session = Session(to);
        session.until_ready()?;
        Ok(session)
    }

    // Reads messages until the server is ready for the next query.
    fn until_ready(&mut self) -> io::Result<()> {
        loop {
            let mut head = [0; 5];
            self.0.read_exact(&mut head)?;
            let count = u32::from_be_bytes([head[1], head[2], head[3], head[4]]) as usize - 4;
            let mut body = vec![0; count];
            self.0.read_exact(&mut body)?;
            match head[0] {
                b'E' => return Err(Error::other(String::from_utf8_lossy(&body).into_owned())),
                b'Z' => return Ok(()),
                _ => {}
            }
        }
    }

    fn run(&mut self, query: &str) -> io::Result<()> {
        let mut message = vec![b'Q'];
        message.extend((query.len() as u32 + 5).to_be_bytes());
        message.extend(query.as_bytes());
        message.push(0);
        self.0.write_all(&message)?;
        self.until_ready()
    }
}

fn main() -> io::Result<()> {
    let words: Vec<String> = env::args().skip(1).collect();
    let [port, count, sync] = &words[..] else {
        eprintln!("postgres PORT COUNT SYNC");
        std::process::exit(64);
    };
    let count: u32 = count.parse().map_err(Error::other)?;
    let mut session = Session::open(port.parse().map_err(Error::other)?)?;
    for it in [
        "set client_min_messages to error".to_string(),
        format!("set synchronous_commit to {sync}"),
        "drop table if exists q".into(),
        "create table q(id bigserial primary key, stage int, root bigint, key bigint, amount bigint)".into(),
        "create index on q(stage, id)".into(),
        "prepare put as insert into q(stage, key, amount) values (1, 0, 1)".into(),
        "prepare take as delete from q where id = (select id from q where stage = 1 order by id \
         for update skip locked limit 1) returning id, key, amount"
            .into(),
        "prepare give as insert into q(stage, root, key, amount) values (15, 0, 0, 1)".into(),
    ] {
        session.run(&it)?;
    }
    let mut least = f64::INFINITY;
    for _ in 0..5 {
        let begun = Instant::now();
        for _ in 0..count {
            for it in [
                "execute put",
                "begin",
                "execute take",
                "execute give",
                "commit",
            ] {
                session.run(it)?;
            }
        }
        least = least.min(begun.elapsed().as_nanos() as f64 / f64::from(count));
    }
    println!("{least:.0}");
    Ok(())
}
