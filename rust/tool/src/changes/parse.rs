//! Words as changes.

use super::{Block, Change, LISTS};
use crate::rows::{List, Table};

/// The changes of a file, in which `#` begins a comment.
pub fn parse_file(text: &str) -> Result<Vec<Change>, String> {
    let said = text.lines().map(|line| line.split('#').next());
    parse_lines(said.map(Option::unwrap_or_default))
}

/// The changes of lines without comments: a line each, but for added rows, whose
/// lines follow. A fault is told with its line.
fn parse_lines<'a>(lines: impl Iterator<Item = &'a str>) -> Result<Vec<Change>, String> {
    let mut changes: Vec<Change> = Vec::new();
    for (at, line) in (1..).zip(lines) {
        let words: Vec<_> = line.split_whitespace().collect();
        let fault = |fault: String| format!("line {at}: {fault}");
        match (words.first(), changes.last_mut()) {
            (None, _) => {}
            (Some(word), _) if is_verb(word) => changes.push(change(&words, at).map_err(fault)?),
            (_, Some(Change::Add { block, .. })) => block.push(at, line),
            _ => return Err(fault(unknown(&words))),
        }
    }
    Ok(changes)
}

/// The changes of a command line: one change in words, or each in quotes. A
/// semicolon ends a line of an added row; there are no comments, so that a word
/// with `#` in it is never cut.
pub fn parse_words(words: &[String]) -> Result<Vec<Change>, String> {
    let quoted = words
        .first()
        .is_some_and(|word| word.trim().contains(char::is_whitespace));
    if !quoted {
        return one(&words.join(" "));
    }
    let changes = words
        .iter()
        .map(|word| match word.trim().contains(char::is_whitespace) {
            true => one(word),
            false => Err(format!(
                "`{word}` is no change: put each change into quotes"
            )),
        });
    Ok(changes.collect::<Result<Vec<_>, _>>()?.concat())
}

/// The changes of one piece of a command line.
fn one(text: &str) -> Result<Vec<Change>, String> {
    let changes = parse_lines(text.split([';', '\n']));
    changes.map_err(|fault| match fault.split_once(": ") {
        Some(("line 1", rest)) => rest.to_owned(),
        _ => fault,
    })
}

/// The words that begin a change.
const VERBS: [&str; 6] = [
    "add",
    "remove",
    "rename",
    "range",
    "deactivate",
    "reactivate",
];

fn is_verb(word: &str) -> bool {
    VERBS.contains(&word)
}

fn change(words: &[&str], at: usize) -> Result<Change, String> {
    let own = |word: &&str| (*word).to_owned();
    match words {
        ["add", word @ ("attribute" | "class"), head @ ..] => {
            let (table, mut block) = (table(word)?, Block::default());
            block.push(at, &format!("{word} {}", head.join(" ")));
            Ok(Change::Add { table, block })
        }
        [verb @ ("add" | "remove"), word, class, entry] => {
            let list = LISTS.iter().find(|(known, _)| known == word);
            let (_, list) = list.ok_or_else(|| unknown(words))?;
            Ok(entry_change(*verb == "add", *list, class, entry))
        }
        ["rename", word, name, to] => {
            let (table, name, to) = (table(word)?, own(name), own(to));
            Ok(Change::Rename { table, name, to })
        }
        ["range", "attribute", name, lower, upper] => {
            let (name, lower, upper) = (own(name), end(lower)?, end(upper)?);
            Ok(Change::Range { name, lower, upper })
        }
        [verb @ ("deactivate" | "reactivate"), word, name] => {
            let (table, name) = (table(word)?, own(name));
            let active = *verb == "reactivate";
            Ok(Change::State {
                active,
                table,
                name,
            })
        }
        _ => Err(unknown(words)),
    }
}

fn entry_change(add: bool, list: List, class: &str, entry: &str) -> Change {
    let (class, entry) = (class.to_owned(), entry.to_owned());
    Change::Entry {
        add,
        list,
        class,
        entry,
    }
}

fn table(word: &str) -> Result<Table, String> {
    match word {
        "attribute" => Ok(Table::Attributes),
        "class" => Ok(Table::Classes),
        _ => Err(format!("`{word}`: attribute or class must stand here")),
    }
}

/// An end of a range: a number, or none.
fn end(word: &str) -> Result<Option<i32>, String> {
    match word {
        "none" => Ok(None),
        _ => {
            let number = word.parse().map(Some);
            number.map_err(|_| format!("`{word}`: a number of 32 bits or `none` must stand here"))
        }
    }
}

/// Words that are no change, and how the verb would be used.
fn unknown(words: &[&str]) -> String {
    let said = words.join(" ");
    let usage = match words.first().copied() {
        Some("add") => {
            "add optional|auxiliary|superior CLASS ENTRY, add attribute NAME OID, add class NAME OID"
        }
        Some("remove") => "remove optional|auxiliary|superior CLASS ENTRY",
        Some("rename") => "rename attribute|class NAME NEW-NAME",
        Some("range") => "range attribute NAME LOWER UPPER (a number or none)",
        Some("deactivate") => "deactivate attribute|class NAME",
        Some("reactivate") => "reactivate attribute|class NAME",
        _ => {
            return format!(
                "`{said}` is no change: one begins with add, remove, rename, range, deactivate or reactivate"
            );
        }
    };
    format!("`{said}` is not complete, or has too much; it is: {usage}")
}
