//! Who may do what, and who a client is.
//!
//! Rights are lines `WHO VERBS NAMES STAGES`. A line of a client's is allowed by the first of them of which
//! all four fit, and denied where there is none.
use crate::fault::{Fault, Status};
use crate::head::is_empty;
use crate::lines::{name_of, stage_of, words, Name, Verb};
use crate::sys::Peer;
use std::fmt;
use std::os::unix::fs::MetadataExt;

const WORDS: usize = 4;
const READABLE_BY_OTHERS: u32 = 0o077;

/// Who a client is, as far as a server can tell.
#[derive(Clone, Debug, PartialEq)]
pub enum Client {
    /// Somebody of this machine, by the system's word.
    Local { user: u32, groups: Vec<u32>, process: i32 },
    /// Who knows a token.
    Token(Name),
    /// Somebody over TCP, who has given no token.
    Stranger,
}

impl Client {
    pub fn local(peer: Peer, mut groups: Vec<u32>) -> Client {
        groups.push(peer.group);
        Client::Local { user: peer.user, groups, process: peer.process }
    }
}

impl fmt::Display for Client {
    fn fmt(&self, to: &mut fmt::Formatter) -> fmt::Result {
        match self {
            Client::Local { user, process, .. } => write!(to, "user:{user} process:{process}"),
            Client::Token(name) => write!(to, "token:{name}"),
            Client::Stranger => write!(to, "a stranger"),
        }
    }
}

#[derive(Debug)]
enum Who {
    User(u32),
    Group(u32),
    Token(Name),
    Any,
}

#[derive(Debug)]
enum Names {
    All,
    /// Each is a name, or the beginning of some.
    Of(Vec<(Vec<u8>, bool)>),
}

#[derive(Debug)]
enum Stages {
    All,
    Of(Vec<(u16, u16)>),
}

#[derive(Debug)]
pub struct Right {
    /// As it is written.
    pub who: String,
    is: Who,
    verbs: Vec<Verb>,
    names: Names,
    stages: Stages,
}

/// Those of a client, by their places among all; None where there are no rules.
pub type Own = Option<Vec<u16>>;

/// All of them.
#[derive(Default)]
pub struct Rights(pub Option<Vec<Right>>);

impl Rights {
    pub fn read(path: Option<&str>) -> Result<Rights, Fault> {
        let Some(path) = path else { return Ok(Rights(None)) };
        let text = std::fs::read_to_string(path).map_err(|it| cant_read(path, &it.to_string()))?;
        rights_of(&text, path).map(|it| Rights(Some(it)))
    }

    /// Those of a client, in their order.
    pub fn of(&self, client: &Client) -> Own {
        let all = self.0.as_ref()?.iter().enumerate();
        Some(all.filter(|it| it.1.is.fits(client)).map(|it| it.0 as u16).collect())
    }

    /// The place of the one that allows this line, or None where it is denied.
    pub fn allows(&self, own: &[u16], verb: Verb, line: &[u8]) -> Option<u16> {
        let all = self.0.as_ref()?;
        own.iter().copied().find(|it| all[usize::from(*it)].fits(verb, line))
    }
}

impl Who {
    fn fits(&self, client: &Client) -> bool {
        match (self, client) {
            (Who::Any, it) => *it != Client::Stranger,
            (Who::User(it), Client::Local { user, .. }) => it == user,
            (Who::Group(it), Client::Local { groups, .. }) => groups.contains(it),
            (Who::Token(it), Client::Token(name)) => it == name,
            _ => false,
        }
    }
}

impl Right {
    fn fits(&self, verb: Verb, line: &[u8]) -> bool {
        // (no word of any other verb is among them but by `*`)
        self.verbs.contains(&verb)
            && (!verb.has_name() || self.names.fit(words(line).nth(1).unwrap_or(b"")))
            && self.stages.fit(verb, line)
    }
}

impl Names {
    fn fit(&self, word: &[u8]) -> bool {
        let Names::Of(them) = self else { return true };
        let name = name_of(word);
        them.iter()
            .any(|(it, begins)| if *begins { name.bytes().starts_with(it) } else { name.bytes() == it })
    }
}

impl Stages {
    /// Whether each stage that a line names is among them. (One without any fits. What a worker has in hand,
    /// and which element a `take` names, isn't in the line.)
    fn fit(&self, verb: Verb, line: &[u8]) -> bool {
        let Stages::Of(them) = self else { return true };
        let mut words = words(line);
        let fits = |word: &[u8]| {
            stage_of(word).is_some_and(|it| them.iter().any(|(from, to)| (*from..=*to).contains(&it)))
        };
        match verb {
            Verb::Submit | Verb::List => words.nth(1).is_none_or(fits),
            Verb::Worker => words.nth(2).is_none_or(fits),
            Verb::Send => words.nth(3).is_none_or(fits),
            Verb::Commit => words.skip(2).filter(|it| it.first() != Some(&b'=')).all(fits),
            _ => true,
        }
    }
}

/// The rights that a text has, of a file with this name.
pub fn rights_of(text: &str, file: &str) -> Result<Vec<Right>, Fault> {
    let lines = text.lines().enumerate().filter(|it| !is_empty(it.1));
    lines.map(|(at, line)| right_of(line).map_err(|why| wrong(file, at, &why))).collect()
}

fn right_of(line: &str) -> Result<Right, String> {
    let words: Vec<&str> = line.split_whitespace().collect();
    let [who, verbs, names, stages] = words[..] else { return Err(format!("a line has {WORDS} words")) };
    let is = who_of(who)?;
    let verbs = match verbs {
        "*" => Verb::ALL.to_vec(),
        "-" => Vec::new(),
        _ => verbs.split(',').map(verb_of).collect::<Result<_, _>>()?,
    };
    let names = match names {
        "*" => Names::All,
        "-" => Names::Of(Vec::new()),
        _ => Names::Of(names.split(',').map(pattern_of).collect::<Result<_, _>>()?),
    };
    let stages = match stages {
        "*" => Stages::All,
        "-" => Stages::Of(Vec::new()),
        _ => Stages::Of(stages.split(',').map(range_of).collect::<Result<_, _>>()?),
    };
    Ok(Right { who: who.into(), is, verbs, names, stages })
}

fn who_of(word: &str) -> Result<Who, String> {
    match word.split_once(':') {
        None if word == "any" => Ok(Who::Any),
        Some(("user", it)) => id_in("/etc/passwd", it).map(Who::User),
        Some(("group", it)) => id_in("/etc/group", it).map(Who::Group),
        Some(("token", it)) if !name_of(it.as_bytes()).is_none() => Ok(Who::Token(name_of(it.as_bytes()))),
        _ => Err(format!("{word} isn't user:NAME, group:NAME, token:NAME or any")),
    }
}

fn id_in(file: &str, word: &str) -> Result<u32, String> {
    if let Ok(it) = word.parse() {
        return Ok(it);
    }
    let text = std::fs::read_to_string(file).map_err(|it| format!("{file}: {it}"))?;
    let line = text.lines().find(|it| it.split(':').next() == Some(word));
    let number = line.and_then(|it| it.split(':').nth(2)).and_then(|it| it.parse().ok());
    number.ok_or_else(|| format!("{word} isn't in {file}"))
}

fn verb_of(word: &str) -> Result<Verb, String> {
    let verb = Verb::of(word.as_bytes());
    if verb == Verb::Other {
        Err(format!("{word} is no word that a line begins with"))
    } else {
        Ok(verb)
    }
}

fn pattern_of(word: &str) -> Result<(Vec<u8>, bool), String> {
    let (name, begins) = word.strip_suffix('*').map_or((word, false), |it| (it, true));
    let is_name = !name_of(name.as_bytes()).is_none() && !name.contains('/');
    if is_name {
        Ok((name.into(), begins))
    } else {
        Err(format!("{word} is no name"))
    }
}

fn range_of(word: &str) -> Result<(u16, u16), String> {
    let (from, to) = word.split_once('-').unwrap_or((word, word));
    let is_number = |it: &str| it.bytes().all(|it| it.is_ascii_digit());
    let stage =
        |it: &str| stage_of(it.as_bytes()).filter(|_| is_number(it)).ok_or(format!("{word} is no stage"));
    Ok((stage(from)?, stage(to)?))
}

fn cant_read(path: &str, why: &str) -> Fault {
    Fault(Status::NoHead, format!("can't read {path}: {why}"))
}

fn wrong(path: &str, at: usize, why: &str) -> Fault {
    Fault(Status::BadHead, format!("{path}:{}: {why}", at + 1))
}

/// What a client may show to be somebody.
#[derive(Default)]
pub struct Tokens(Vec<(Name, Vec<u8>)>);

impl Tokens {
    /// Reads lines `NAME SECRET`, of a file that nobody else may read.
    pub fn read(path: Option<&str>) -> Result<Tokens, Fault> {
        let Some(path) = path else { return Ok(Tokens::default()) };
        let text = std::fs::read_to_string(path).map_err(|it| cant_read(path, &it.to_string()))?;
        let mode = std::fs::metadata(path).map_or(0, |it| it.mode());
        if mode & READABLE_BY_OTHERS != 0 {
            return Err(cant_read(path, "others may read it (chmod 600)"));
        }
        let mut found = Vec::new();
        for (at, line) in text.lines().enumerate().filter(|it| !is_empty(it.1)) {
            let words: Vec<&str> = line.split_whitespace().collect();
            match words[..] {
                [name, secret] if !name_of(name.as_bytes()).is_none() => {
                    found.push((name_of(name.as_bytes()), secret.into()));
                }
                _ => return Err(wrong(path, at, "not NAME SECRET")),
            }
        }
        Ok(Tokens(found))
    }

    pub fn is_empty(&self) -> bool {
        self.0.is_empty()
    }

    /// Whose secret this is. It takes as long whichever it is, or none.
    pub fn whose(&self, secret: &[u8]) -> Option<Name> {
        let same = |it: &[u8]| {
            it.len() == secret.len() && it.iter().zip(secret).fold(0, |all, (a, b)| all | (a ^ b)) == 0
        };
        self.0.iter().fold(None, |found, (name, it)| if same(it) { Some(*name) } else { found })
    }
}

#[cfg(test)]
mod tests {
    use super::*;

    fn rights(lines: &[&str]) -> Rights {
        Rights(Some(lines.iter().map(|it| right_of(it).expect(it)).collect()))
    }

    fn allowed(rights: &Rights, client: &Client, line: &str) -> Option<u16> {
        let verb = Verb::of(words(line.as_bytes()).next().unwrap_or(b""));
        rights.allows(&rights.of(client)?, verb, line.as_bytes())
    }

    #[test]
    fn the_first_that_fits() {
        let all = rights(&[
            "user:7 submit,send shop* 1,3-5",
            "group:9 claim,commit packer 2",
            "any count - -",
            "user:7 * * *",
        ]);
        let (seven, nine) = (
            Client::Local { user: 7, groups: vec![], process: 1 },
            Client::Local { user: 8, groups: vec![9], process: 1 },
        );
        let told = |client, line| allowed(&all, client, line);
        assert_eq!(told(&seven, "submit 3 5"), Some(0));
        assert_eq!(told(&seven, "submit 2 5"), Some(3));
        assert_eq!(told(&seven, "send shop2/4 1 5 6"), Some(0));
        assert_eq!(told(&nine, "commit packer 2:5:5 2:1:1"), Some(1));
        assert_eq!(told(&nine, "commit packer =3:1 2:5:5"), Some(1));
        for line in ["commit packer 2:5:5 15:1:1", "claim packers", "claim", "submit 1 5", "nonsense", "dump"]
        {
            assert_eq!(told(&nine, line), None, "{line}");
        }
        assert_eq!(told(&nine, " claim  packer"), Some(1));
        assert_eq!(told(&nine, "count"), Some(2));
        assert_eq!(told(&seven, "nonsense"), Some(3));
    }

    #[test]
    fn who_is_known_by_a_token() {
        let all = rights(&["token:app count * *", "any depth * *"]);
        let app = Client::Token(Name::of(b"app"));
        assert_eq!(allowed(&all, &app, "count"), Some(0));
        assert_eq!(allowed(&all, &app, "depth"), Some(1));
        assert_eq!(all.of(&Client::Stranger), Some(vec![]));
        let tokens = Tokens(vec![(Name::of(b"app"), b"abc".to_vec()), (Name::of(b"b"), b"abd".to_vec())]);
        assert_eq!(
            [tokens.whose(b"abd"), tokens.whose(b"ab"), tokens.whose(b"")],
            [Some(Name::of(b"b")), None, None]
        );
    }

    #[test]
    fn lines_that_are_no_rights() {
        for line in [
            "any * *",
            "any * * * *",
            "who * * *",
            "any jump * *",
            "any * 7up *",
            "any * * 0",
            "any * * 3:1",
            "user:nobody-here * * *",
        ] {
            assert!(right_of(line).is_err(), "{line}");
        }
    }
}
