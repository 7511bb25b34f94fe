//! Lines of a session, as far as a server must know them.

/// How many bytes a line may have, its end not counted; of one that is too long the server keeps one more.
pub const LONGEST_LINE: usize = 1023;
const LONGEST_TAG: usize = 20;
const LAST_STAGE: u16 = 999;
const LONGEST_NUMBER: usize = 8;
/// The stage of replies.
pub const REPLIES: u16 = 15;

/// A few bytes, kept where they are used. None at all where there is no such word.
#[derive(Clone, Copy, PartialEq, Eq, Hash, PartialOrd, Ord)]
pub struct Short<const MOST: usize> {
    length: u8,
    bytes: [u8; MOST],
}

/// The name of a worker, a server or a client.
pub type Name = Short<32>;
/// What a client has put before its line, and has before its answer.
pub type Tag = Short<LONGEST_TAG>;

impl<const MOST: usize> Short<MOST> {
    pub const NONE: Self = Short { length: 0, bytes: [0; MOST] };

    /// NONE where there are more than may be.
    pub fn of(some: &[u8]) -> Self {
        let mut it = Self::NONE;
        if let Some(bytes) = it.bytes.get_mut(..some.len()) {
            bytes.copy_from_slice(some);
            it.length = some.len() as u8;
        }
        it
    }

    pub fn is_none(&self) -> bool {
        self.length == 0
    }

    pub fn bytes(&self) -> &[u8] {
        &self.bytes[..usize::from(self.length)]
    }
}

impl<const MOST: usize> std::fmt::Debug for Short<MOST> {
    fn fmt(&self, to: &mut std::fmt::Formatter) -> std::fmt::Result {
        write!(to, "{:?}", String::from_utf8_lossy(self.bytes()))
    }
}

impl<const MOST: usize> std::fmt::Display for Short<MOST> {
    fn fmt(&self, to: &mut std::fmt::Formatter) -> std::fmt::Result {
        to.write_str(&String::from_utf8_lossy(self.bytes()))
    }
}

/// The bytes of names and tags.
fn is_of_name(byte: u8) -> bool {
    byte.is_ascii_alphanumeric() || matches!(byte, b'.' | b'_' | b'-')
}

/// The name that a word is, without an epoch behind it. NONE where it is no name.
pub fn name_of(word: &[u8]) -> Name {
    let name = word.split(|it| *it == b'/').next().unwrap_or(b"");
    let is_name = name.first().is_some_and(u8::is_ascii_alphabetic) && name.iter().all(|it| is_of_name(*it));
    if is_name {
        Name::of(name)
    } else {
        Name::NONE
    }
}

/// Returns the tag before a line, and the line. What has no tag's form is a line of the session's.
pub fn tag_in(line: &[u8]) -> (Tag, &[u8]) {
    let Some(rest) = line.strip_prefix(b"@") else { return (Tag::NONE, line) };
    let length = rest.iter().take(LONGEST_TAG + 1).take_while(|it| is_of_name(**it)).count();
    match rest.get(length) {
        _ if length == 0 || length > LONGEST_TAG => (Tag::NONE, line),
        None => (Tag::of(rest), b""),
        Some(b' ') => (Tag::of(&rest[..length]), &rest[length + 1..]),
        Some(_) => (Tag::NONE, line),
    }
}

/// Whether any bytes between two line ends have an answer, behind the head. A comment has one that is too
/// long, or has a byte that no line has: it is refused.
pub fn is_asked(line: &[u8]) -> bool {
    match line.first() {
        None => false,
        Some(b'#') => line.len() > LONGEST_LINE || !line.iter().all(|it| (b' '..=b'~').contains(it)),
        Some(b' ') => line.len() > LONGEST_LINE || line.iter().any(|it| *it != b' '),
        Some(_) => true,
    }
}

/// Of a line that is too long as much as the program refuses.
pub fn kept_of(line: &[u8]) -> &[u8] {
    &line[..line.len().min(LONGEST_LINE + 1)]
}

pub fn words(line: &[u8]) -> impl Iterator<Item = &[u8]> {
    line.split(|it| *it == b' ').filter(|it| !it.is_empty())
}

/// A number of at most eight digits.
pub fn number_of(word: &[u8]) -> Option<u64> {
    let is_number = (1..=LONGEST_NUMBER).contains(&word.len()) && word.iter().all(u8::is_ascii_digit);
    is_number.then(|| word.iter().fold(0, |all, it| 10 * all + u64::from(it - b'0')))
}

/// The stage that a word is, or begins with, as `STAGE:W0:W1`.
pub fn stage_of(word: &[u8]) -> Option<u16> {
    let digits = word.split(|it| *it == b':').next().unwrap_or(b"");
    let number = number_of(digits).and_then(|it| u16::try_from(it).ok());
    number.filter(|it| (1..=LAST_STAGE).contains(it))
}

macro_rules! verbs {
    ($($verb:ident $word:literal)*) => {
        /// The first word of a line.
        #[derive(Clone, Copy, PartialEq, Eq, Debug)]
        pub enum Verb { $($verb,)* Other }

        impl Verb {
            /// By numbers, as of arrays that have one place for each.
            pub const ALL: &'static [Verb] = &[$(Verb::$verb,)* Verb::Other];

            pub fn of(word: &[u8]) -> Verb {
                match std::str::from_utf8(word) {
                    $(Ok($word) => Verb::$verb,)*
                    _ => Verb::Other,
                }
            }

            pub fn word(self) -> &'static str {
                match self {
                    $(Verb::$verb => $word,)*
                    Verb::Other => "other",
                }
            }
        }
    };
}
verbs! {
    Abort "abort" Account "account" Balance "balance" Cancel "cancel" Claim "claim" Collect "collect"
    Commit "commit" Count "count" Depth "depth" Drain "drain" Drop "drop" Dump "dump" Errors "errors"
    Family "family" Forget "forget" Holds "holds" Kill "kill" Last "last" Leave "leave" List "list"
    Next "next"
    Prepare "prepare" Read "read" Receive "receive" Register "register" Release "release" Reply "reply"
    Requeue "requeue" Restore "restore" Send "send" Submit "submit" Sum "sum" Take "take" Token "token"
    Turn "turn" Version "version" Worker "worker"
}

impl Verb {
    /// Whether the second word is the name of a worker, a server or a client.
    pub fn has_name(self) -> bool {
        use Verb::*;
        self.is_about_units()
            || matches!(self, Balance | Forget | Last | Receive | Register | Send | Turn | Worker)
    }

    /// Whether a unit may be open behind it that wasn't before.
    pub fn begins(self) -> bool {
        matches!(self, Verb::Claim | Verb::Take | Verb::Next)
    }

    /// Whether it begins or ends units.
    pub fn is_about_units(self) -> bool {
        use Verb::*;
        self.begins() || matches!(self, Abort | Commit | Drop | Leave | Prepare)
    }
}

/// Returns a line without ` wait SECONDS` at its end, and the seconds, where it is one that may wait.
pub fn wait_in(verb: Verb, line: &[u8]) -> Option<(&[u8], u64)> {
    let least = match verb {
        Verb::Claim | Verb::Next => 2,
        Verb::Receive => 3,
        _ => return None,
    };
    let (before, seconds) = last_word(line)?;
    let (before, word) = last_word(before)?;
    let is_wait = word == b"wait" && words(before).count() >= least;
    number_of(seconds).filter(|_| is_wait).map(|it| (before, it))
}

/// Returns what stands before the last word, and that.
fn last_word(line: &[u8]) -> Option<(&[u8], &[u8])> {
    let end = line.iter().rposition(|it| *it != b' ')? + 1;
    let begin = line[..end].iter().rposition(|it| *it == b' ').map_or(0, |it| it + 1);
    Some((&line[..begin], &line[begin..end]))
}

/// Whether an answer is `refused [line L:] K WHY`, and why.
pub fn refused(answer: &[u8]) -> Option<&[u8]> {
    let mut words = answer.strip_prefix(b"refused ")?.split(|it| *it == b' ');
    let mut word = words.next()?;
    if word == b"line" {
        words.next()?;
        word = words.next()?;
    }
    (!word.is_empty() && word.iter().all(u8::is_ascii_digit)).then(|| words.next()).flatten()
}

#[cfg(test)]
mod tests {
    use super::*;

    #[test]
    fn tags() {
        assert_eq!(tag_in(b"@a.1 count"), (Tag::of(b"a.1"), &b"count"[..]));
        assert_eq!(tag_in(b"@a"), (Tag::of(b"a"), &b""[..]));
        assert_eq!(tag_in(b"@a  #"), (Tag::of(b"a"), &b" #"[..]));
        let longest = [&b"@"[..], &[b'x'; 20]].concat();
        assert_eq!(tag_in(&longest).0.bytes().len(), 20);
        for line in [&b"@"[..], b"@ count", b"@a:b count", b"count", b"@xxxxxxxxxxxxxxxxxxxxx count"] {
            assert_eq!(tag_in(line), (Tag::NONE, line));
        }
    }

    #[test]
    fn waits() {
        let found = |line: &'static [u8]| wait_in(Verb::of(words(line).next().unwrap_or(b"")), line);
        assert_eq!(found(b"claim packer wait 5"), Some((&b"claim packer "[..], 5)));
        assert_eq!(found(b"  next a  wait 0 "), Some((&b"  next a  "[..], 0)));
        assert_eq!(found(b"receive shop 3 7 wait 60"), Some((&b"receive shop 3 7 "[..], 60)));
        let none: [&[u8]; 7] = [
            b"receive wait 5",
            b"receive shop wait 5",
            b"claim wait 5",
            b"claim a wait",
            b"claim a wait x",
            b"claim a wait 123456789",
            b"count a wait 5",
        ];
        assert!(none.into_iter().all(|it| found(it).is_none()));
    }

    #[test]
    fn what_has_an_answer() {
        for line in [&b""[..], b" ", b"# any", b"#"] {
            assert!(!is_asked(line));
        }
        for line in [&b"#\t"[..], b" x", b"x", b"#\xff", b"\t"] {
            assert!(is_asked(line));
        }
        assert!(!is_asked(&[b'#'; 1023]) && is_asked(&[b'#'; 1024]) && is_asked(&[b' '; 1024]));
    }

    #[test]
    fn refusals() {
        assert_eq!(refused(b"refused 7 Full"), Some(&b"Full"[..]));
        assert_eq!(refused(b"refused line 3: 5 BadName"), Some(&b"BadName"[..]));
        assert_eq!(refused(b"refused work 0 unit 0"), None);
        assert_eq!(refused(b"refused idle"), None);
    }

    #[test]
    fn names_and_stages() {
        assert_eq!(name_of(b"shop/7"), Name::of(b"shop"));
        assert!(
            name_of(b"7up").is_none() && name_of(&[b'a'; 33]).is_none() && !name_of(&[b'a'; 32]).is_none()
        );
        assert_eq!(
            [stage_of(b"15:6:7"), stage_of(b"999"), stage_of(b"1000"), stage_of(b"x")],
            [Some(15), Some(999), None, None]
        );
    }
}
