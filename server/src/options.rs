//! The words behind `covetrivetd`.
use crate::lines::number_of;

pub const USAGE: &str = "\
covetrivetd --socket PATH --head FILE [..] [-- PROGRAM [WORD..]]   one live session for many processes
  --socket PATH         where clients connect to
  --head FILE           the lines to begin with, as of a dump
  --journal FILE        each line is in it before it is answered, and the session goes on from it
  --node                PROGRAM is a node of a cluster, in place of --head: `covetrivet node` says so
  --mode MODE           the sockets' permissions (0600)
  --orphans keep|abort:SECONDS
                        units of clients that are gone (keep)
  --metrics PATH|HOST:PORT
                        answers GET /metrics, /clients, /ready and /healthz
  --tcp HOST:PORT       where clients with tokens connect to, too; it needs --tokens
  --tokens FILE         lines NAME SECRET, for `token SECRET`
  --rights FILE         lines WHO VERBS NAMES STAGES: what clients may do (all)
  --connections N       connections (1000)
  --lines N             lines of one that aren't answered; the others wait (64)
  --unread N            bytes that one hasn't read; then it is let go (1048576)
  --slow N              seconds in which it reads none of what waits; then too (60)
PROGRAM is the program of sessions; without it COVETRIVET_PROGRAM names it. docs/SERVICE.md has more.
";

/// What a server is to be.
#[derive(Debug, PartialEq)]
pub struct Options {
    pub socket: String,
    pub head: String,
    pub journal: Option<String>,
    pub is_node: bool,
    pub mode: u32,
    /// After how many seconds units of clients that are gone are aborted.
    pub orphans: Option<f64>,
    pub metrics: Option<String>,
    pub tcp: Option<String>,
    pub tokens: Option<String>,
    pub rights: Option<String>,
    pub limits: Limits,
    pub program: Vec<String>,
}

/// What clients may take.
#[derive(Debug, PartialEq)]
pub struct Limits {
    pub connections: usize,
    pub lines: usize,
    pub unread: usize,
    pub slow: f64,
}

/// What was asked for.
#[derive(Debug, PartialEq)]
pub enum Wish {
    Serve(Box<Options>),
    Help,
    Version,
}

impl Options {
    fn new() -> Options {
        let limits = Limits { connections: 1000, lines: 64, unread: 1 << 20, slow: 60.0 };
        Options {
            socket: String::new(),
            head: String::new(),
            journal: None,
            is_node: false,
            mode: 0o600,
            orphans: None,
            metrics: None,
            tcp: None,
            tokens: None,
            rights: None,
            limits,
            program: Vec::new(),
        }
    }

    /// Takes the value of an option. None where it is no such value, or there is no such option.
    fn set(&mut self, option: &str, value: &str) -> Option<()> {
        let text = (!value.is_empty()).then(|| value.to_string());
        match option {
            "--socket" => self.socket = text?,
            "--head" => self.head = text?,
            "--journal" => self.journal = Some(text?),
            "--metrics" => self.metrics = Some(text?),
            "--tcp" => self.tcp = Some(text?),
            "--tokens" => self.tokens = Some(text?),
            "--rights" => self.rights = Some(text?),
            "--mode" => self.mode = mode_of(value)?,
            "--orphans" if value == "keep" => self.orphans = None,
            "--orphans" => self.orphans = Some(seconds_of(value.strip_prefix("abort:")?)?),
            "--connections" => self.limits.connections = many_of(value)?,
            "--lines" => self.limits.lines = many_of(value)?,
            "--unread" => self.limits.unread = many_of(value)?,
            "--slow" => self.limits.slow = seconds_of(value)?,
            _ => return None,
        }
        Some(())
    }
}

/// Returns what the words ask for. An Err says which of them is wrong.
pub fn wish_of(words: &[String]) -> Result<Wish, String> {
    let mut it = Options::new();
    let mut words = words.iter();
    while let Some(word) = words.next() {
        match word.as_str() {
            "--help" | "-h" => return Ok(Wish::Help),
            "--version" => return Ok(Wish::Version),
            "--node" => {
                it.is_node = true;
                continue;
            }
            "--" => {
                it.program = words.cloned().collect();
                break;
            }
            _ => (),
        }
        let (option, value) = match word.split_once('=') {
            Some((option, value)) if option.starts_with("--") => (option, Some(value)),
            _ => (word.as_str(), words.next().map(String::as_str)),
        };
        let value = value.ok_or_else(|| format!("{option} has no value behind it, or is no option"))?;
        it.set(option, value)
            .ok_or_else(|| format!("{option} {value}: this is no option, or no value for it"))?;
    }
    for (option, is_there) in
        [("--socket", !it.socket.is_empty()), ("--head", !it.head.is_empty() || it.is_node)]
    {
        if !is_there {
            return Err(format!("{option} is wanted"));
        }
    }
    if it.is_node && (it.journal.is_some() || !it.head.is_empty() || it.program.is_empty()) {
        return Err(
            "--node needs a program behind `--`, which has head and log itself: covetrivet node".into()
        );
    }
    if it.tcp.is_some() && it.tokens.is_none() {
        return Err("--tcp needs --tokens: whoever comes that way is known by nothing else".into());
    }
    Ok(Wish::Serve(Box::new(it)))
}

fn mode_of(word: &str) -> Option<u32> {
    let digits = if word.len() == 4 { word.strip_prefix('0')? } else { word };
    let is_mode = digits.len() == 3 && digits.bytes().all(|it| (b'0'..=b'7').contains(&it));
    is_mode.then(|| u32::from_str_radix(digits, 8).ok()).flatten()
}

fn many_of(word: &str) -> Option<usize> {
    number_of(word.as_bytes()).filter(|it| *it > 0 && !word.starts_with('0')).map(|it| it as usize)
}

fn seconds_of(word: &str) -> Option<f64> {
    let (whole, part) = word.split_once('.').unwrap_or((word, "0"));
    let is_number = number_of(whole.as_bytes()).is_some()
        && !part.is_empty()
        && part.bytes().all(|it| it.is_ascii_digit());
    is_number.then(|| word.parse().ok()).flatten()
}

#[cfg(test)]
mod tests {
    use super::*;

    fn wish(words: &str) -> Result<Wish, String> {
        wish_of(&words.split_whitespace().map(str::to_string).collect::<Vec<_>>())
    }

    #[test]
    fn words() {
        let all =
            "--socket s --head=h --mode 0660 --orphans abort:0.5 --slow 2 --lines 7 -- tp_live --journal x";
        let mut it = Options::new();
        (it.socket, it.head, it.mode, it.orphans) = ("s".into(), "h".into(), 0o660, Some(0.5));
        (it.limits.slow, it.limits.lines) = (2.0, 7);
        it.program = ["tp_live", "--journal", "x"].map(String::from).to_vec();
        assert_eq!(wish(all), Ok(Wish::Serve(Box::new(it))));
        assert_eq!(wish("--help"), Ok(Wish::Help));
        let mut it = Options::new();
        (it.socket, it.is_node, it.program) = ("s".into(), true, vec!["n".into()]);
        assert_eq!(wish("--node --socket s -- n"), Ok(Wish::Serve(Box::new(it))));
    }

    #[test]
    fn wrong_words() {
        for it in [
            "",
            "--socket s",
            "--head h",
            "--socket",
            "--socket s --head h --mode 9",
            "--socket s --head h --lines 0",
            "--socket s --head h more",
            "--socket s --head h --orphans abort",
            "--socket s --head h --slow 1e3",
            "--socket s --head h --tcp :1",
            "--socket s --head h --mode 1777",
            "--socket s --head h --nice 3",
            "--socket s --node",
            "--socket s --node --head h -- node",
            "--socket s --node --journal j -- node",
        ] {
            assert!(wish(it).is_err(), "{it}");
        }
    }
}
