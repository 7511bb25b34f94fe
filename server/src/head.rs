//! The lines that a session begins with, and what they say of names.
use crate::lines::{name_of, stage_of, words, Name, LONGEST_LINE};
use std::collections::HashMap;

/// What a dump says of what there is: behind any of these `restore` is the first command.
const TO_RESTORE: [&str; 10] =
    ["numbers", "element", "over", "settled", "hand", "from", "prepared", "dropped", "ended", "client"];
/// What ends a head. Any other line is sent as one of the head, and so refused where it is faulty.
const COMMANDS: [&str; 33] = [
    "submit", "kill", "cancel", "requeue", "release", "collect", "restore", "claim", "next", "turn",
    "prepare", "abort", "drop", "drain", "take", "commit", "leave", "send", "receive", "forget", "read",
    "reply", "family", "errors", "count", "depth", "list", "holds", "balance", "sum", "account", "last",
    "dump",
];

pub fn is_empty(line: &str) -> bool {
    line.starts_with('#') || line.trim().is_empty()
}

fn first(line: &str) -> &str {
    line.split_whitespace().next().unwrap_or("")
}

fn is_of_head(line: &str) -> bool {
    is_empty(line) || !COMMANDS.contains(&first(line))
}

/// Whether none of the lines must be a command.
pub fn is_only_head(lines: &[String]) -> bool {
    lines.iter().all(|it| is_of_head(it))
}

/// Whether a line behind the head has an answer.
pub fn is_answered(line: &str) -> bool {
    !is_empty(line) || line.len() > LONGEST_LINE
}

/// Returns the lines of a file, of which the last one may lack its end. An Err says what is wrong with them.
pub fn lines_of(text: &[u8]) -> Result<Vec<String>, String> {
    let mut lines: Vec<&[u8]> = text.split(|it| *it == b'\n').collect();
    if lines.last().is_some_and(|it| it.is_empty()) {
        lines.pop();
    }
    let mut found = Vec::with_capacity(lines.len());
    for line in lines {
        let shown = String::from_utf8_lossy(line);
        if !line.iter().all(|it| (b' '..=b'~').contains(it)) {
            return Err(format!("this can't be a line of a session: {shown:?}"));
        }
        found.push(shown.into_owned());
    }
    Ok(found)
}

/// Returns the lines up to the first command, and the others. That command is `restore` where the lines
/// restore, else `count`. They need not have it.
pub fn beginning(lines: &[String]) -> (Vec<String>, Vec<String>) {
    let mut head: Vec<String> = lines.iter().take_while(|it| is_of_head(it)).cloned().collect();
    let others = &lines[head.len()..];
    let restores = head.iter().any(|it| TO_RESTORE.contains(&first(it)));
    let has_command = others.first().is_some_and(|it| restores || matches!(it.trim(), "count" | "restore"));
    if let (Some(it), true) = (others.first(), has_command) {
        head.push(it.clone());
        return (head, others[1..].to_vec());
    }
    head.push(if restores { "restore" } else { "count" }.into());
    (head, others.to_vec())
}

/// From which stage a name takes, and where the outputs go of a server that has it.
#[derive(Clone, PartialEq, Eq, Debug)]
pub struct Takes {
    pub stage: u16,
    pub outputs: Vec<u16>,
}

/// What is known of names.
pub type Names = HashMap<Name, Takes>;

/// Takes note of what a line says of a name, if it is one that does.
pub fn note_name(names: &mut Names, line: &[u8]) {
    let mut it = words(line);
    let (verb, name) = (it.next().unwrap_or(b""), name_of(it.next().unwrap_or(b"")));
    if name.is_none() {
        return;
    }
    let takes = match verb {
        b"worker" => it.next().and_then(stage_of).map(|stage| Takes { stage, outputs: Vec::new() }),
        b"server" => {
            let stage = it.nth(1).and_then(stage_of);
            stage.map(|stage| Takes { stage, outputs: it.skip(2).filter_map(stage_of).collect() })
        }
        b"leave" => return drop(names.remove(&name)),
        _ => None,
    };
    // (of a name that is there another line is refused)
    if let Some(takes) = takes {
        names.entry(name).or_insert(takes);
    }
}

#[cfg(test)]
mod tests {
    use super::*;

    fn owned(lines: &[&str]) -> Vec<String> {
        lines.iter().map(|it| it.to_string()).collect()
    }

    #[test]
    fn beginnings() {
        let cut = |lines: &[&str]| beginning(&owned(lines));
        assert_eq!(cut(&["keep 5", "worker a 1"]), (owned(&["keep 5", "worker a 1", "count"]), vec![]));
        assert_eq!(cut(&["keep 5", "submit 1 5"]), (owned(&["keep 5", "count"]), owned(&["submit 1 5"])));
        assert_eq!(cut(&["wroker a 1", "keep 5"]), (owned(&["wroker a 1", "keep 5", "count"]), vec![]));
        assert_eq!(cut(&["count", "count"]), (owned(&["count"]), owned(&["count"])));
        assert_eq!(cut(&["numbers 1 1 0"]), (owned(&["numbers 1 1 0", "restore"]), vec![]));
        assert_eq!(cut(&["numbers 1 1 0", "count"]), (owned(&["numbers 1 1 0", "count"]), vec![]));
    }

    #[test]
    fn names() {
        let mut names = Names::new();
        for line in
            ["worker ann 3", "server till eager 2 1 add 15:same:after 3:1:1", "worker ann 4", "worker x 1000"]
        {
            note_name(&mut names, line.as_bytes());
        }
        assert_eq!(names.get(&Name::of(b"ann")), Some(&Takes { stage: 3, outputs: vec![] }));
        assert_eq!(names.get(&Name::of(b"till")), Some(&Takes { stage: 2, outputs: vec![15, 3] }));
        assert_eq!(names.len(), 2);
        note_name(&mut names, b"leave ann");
        note_name(&mut names, b"worker ann 4");
        assert_eq!(names.get(&Name::of(b"ann")).map(|it| it.stage), Some(4));
    }
}
