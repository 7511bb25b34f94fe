//! What clients, files and the program may say, in any bytes: what the server reads of it is held against
//! plain second readings. The first byte says what the others are. It is run by libFuzzer (server/fuzz/run).
#![cfg_attr(not(test), no_main)]
#![allow(dead_code)]

#[path = "../src/ages.rs"]
mod ages;
#[path = "../src/arrivals.rs"]
mod arrivals;
#[path = "../src/fault.rs"]
mod fault;
#[path = "../src/head.rs"]
mod head;
#[path = "../src/http.rs"]
mod http;
#[path = "../src/lines.rs"]
mod lines;
#[path = "../src/options.rs"]
mod options;
#[path = "../src/page.rs"]
mod page;
#[path = "../src/rights.rs"]
mod rights;
#[path = "../src/routing.rs"]
mod routing;
#[path = "../src/said.rs"]
mod said;
#[path = "../src/slab.rs"]
mod slab;
#[path = "../src/sys.rs"]
mod sys;
#[path = "../src/tally.rs"]
mod tally;
#[path = "../src/units.rs"]
mod units;

use lines::{
    is_asked, kept_of, name_of, refused, stage_of, tag_in, wait_in, words, Name, Verb, LONGEST_LINE,
};
use std::time::{Duration, Instant};

/// A line of a client: its tag, whether it has an answer, what waits in it, and where something may come by
/// it.
fn line(given: &[u8]) {
    let text: Vec<u8> = given.iter().copied().filter(|it| *it != b'\n').collect();
    let (tag, rest) = tag_in(&text);
    if tag.is_none() {
        assert_eq!(rest, text);
    } else {
        let between: &[u8] = if rest.is_empty() && !text.ends_with(b" ") { b"" } else { b" " };
        let again = [b"@", tag.bytes(), between, rest].concat();
        assert_eq!(again, text);
        assert!((1..=20).contains(&tag.bytes().len()));
    }
    let is_comment = rest.starts_with(b"#") && rest.iter().all(|it| (0x20..0x7f).contains(it));
    let is_blank = rest.iter().all(|it| *it == b' ');
    assert_eq!(is_asked(rest), rest.len() > LONGEST_LINE || !is_comment && !is_blank);
    let kept = kept_of(rest);
    assert!(rest.starts_with(kept) && kept.len() <= LONGEST_LINE + 1);
    let mut all = words(kept);
    let (verb, name) = (Verb::of(all.next().unwrap_or(b"")), name_of(all.next().unwrap_or(b"")));
    if let Some((before, seconds)) = wait_in(verb, kept) {
        let said: Vec<&[u8]> = words(kept).collect();
        let left: Vec<&[u8]> = words(before).collect();
        assert_eq!(said[..said.len() - 2], left[..]);
        assert_eq!(said[said.len() - 2], b"wait");
        assert_eq!(
            std::str::from_utf8(said[said.len() - 1]).ok().and_then(|it| it.parse().ok()),
            Some(seconds)
        );
        assert!(left.len() >= 2 && matches!(verb, Verb::Claim | Verb::Next | Verb::Receive));
    }
    let mut names = head::Names::new();
    for it in ["worker ann 3", "server till eager 2 1 add 15:same:after 4:1:1"] {
        head::note_name(&mut names, it.as_bytes());
    }
    let found = arrivals::arrivals_of(verb, name, kept, &names, &units::Units::default());
    for stage in words(kept).skip(2).filter_map(stage_of).filter(|_| verb == Verb::Commit) {
        let tells =
            found.is_anywhere || found.stages().any(|it| it == stage) || stage == 15 && found.has_replies;
        assert!(
            tells
                || words(kept).nth(1).is_none()
                || names.get(&name).is_some_and(|it| !it.outputs.is_empty())
        );
    }
}

/// Rights, and a line behind them.
fn some_rights(given: &[u8]) {
    let text = String::from_utf8_lossy(given);
    let (text, line) = text.split_once('\0').unwrap_or((&text, "submit 1 5 6"));
    let Ok(them) = rights::rights_of(text, "fuzz") else { return };
    let them = rights::Rights(Some(them));
    let verb = Verb::of(words(line.as_bytes()).next().unwrap_or(b""));
    for client in [rights::Client::Stranger, rights::Client::Token(Name::of(b"app")), local()] {
        let own = them.of(&client).unwrap_or_default();
        let allowed = them.allows(&own, verb, line.as_bytes());
        assert!(allowed.is_none_or(|it| own.contains(&it)));
        assert!(client != rights::Client::Stranger || allowed.is_none());
    }
}

fn local() -> rights::Client {
    rights::Client::Local { user: 0, groups: vec![0], process: 1 }
}

/// A request, a head, and answers of the program.
fn others(kind: u8, given: &[u8]) {
    let now = Instant::now();
    match kind {
        0 => drop(http::wanted_in(given)),
        1 => {
            if let Ok(them) = head::lines_of(given) {
                let (first, rest) = head::beginning(&them);
                assert!(first.len() + rest.len() - them.len() <= 1);
                assert!(first[..first.len() - 1]
                    .iter()
                    .all(|it| head::is_only_head(std::slice::from_ref(it))));
            }
        }
        2 => {
            let mut ages = ages::Ages::default();
            for answer in given.split(|it| *it == b'\n') {
                for verb in [Verb::Submit, Verb::Send, Verb::Commit] {
                    ages.hear(verb, answer, now);
                }
                assert_eq!(ages.of(u64::MAX, now), Duration::ZERO);
            }
        }
        3 => {
            let answer = String::from_utf8_lossy(given);
            let mut page = page::Page::default();
            let mut tally = tally::Tally::new(0);
            tally.hear(Verb::Count, name_of(given), given, Duration::ZERO);
            page.depths(&answer, &mut Default::default());
            page.counted(&answer);
            assert!(refused(given).is_none() || given.starts_with(b"refused "));
        }
        4 => node(given),
        _ => {
            let text = String::from_utf8_lossy(given);
            let _ = options::wish_of(&text.split_whitespace().map(str::to_string).collect::<Vec<_>>());
        }
    }
}

/// A line of a node's: what is read of it stands there behind its word.
fn node(given: &[u8]) {
    use said::Said::{Ends, Follows, Leads, Name, Told};
    let (word, rest) = match said::said_in(given) {
        None => return assert!(!given.starts_with(b"\x01told ") && !given.starts_with(b"\x01name ")),
        Some(Name(rest)) => ("name", rest.to_vec()),
        Some(Leads(term, holds)) => ("leads", format!("{term} {holds}").into_bytes()),
        Some(Follows(why)) => ("follows", why.into()),
        Some(Told(answer)) => ("told", answer.to_vec()),
        Some(Ends(_, why)) => ("ends", why.into()),
    };
    assert!(said::is_own(given) && given.starts_with(&[b"\x01", word.as_bytes()].concat()));
    // (a number may have zeros before it)
    assert!(given.ends_with(&rest) || word == "leads");
}

pub fn one(given: &[u8]) {
    match given.split_first() {
        Some((0..=9, rest)) => line(rest),
        Some((10..=14, rest)) => some_rights(rest),
        Some((kind, rest)) => others((kind - 15) % 6, rest),
        None => (),
    }
}

#[cfg(not(test))]
#[no_mangle]
pub extern "C" fn LLVMFuzzerTestOneInput(bytes: *const u8, many: usize) -> i32 {
    // SAFETY: libFuzzer hands over so many bytes, which stay as they are in the call.
    one(if many == 0 { &[] } else { unsafe { std::slice::from_raw_parts(bytes, many) } });
    0
}
