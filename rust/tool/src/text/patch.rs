//! A text rewritten after changes: what is not touched stays as it was written,
//! comments too.

use super::write::{block, head, lines};
use crate::rows::{List, RowId, Schema};

/// The text of the schema after changes, from the text of the one before. Lines
/// of a row whose word says the same as before stay; others are put in place of
/// the first line with their word, or behind the row's last line; where a line
/// goes its comment stays; added rows come last.
pub fn patched(text: &str, before: &Schema, after: &Schema) -> String {
    let mut rows = Rows {
        before,
        after,
        next: [0; 2],
        row: None,
    };
    let mut written = Written::of(text);
    let mut pending: Vec<(&str, &str)> = Vec::new();
    let mut seen = Vec::new();
    for (line, ending) in text.split_inclusive('\n').map(parted) {
        let word = first_word(line);
        if matches!(word, Some("attribute" | "class")) {
            written.add(rows.missing(&seen));
            seen.clear();
            rows.begin(word == Some("attribute"));
        }
        if word.is_none() {
            pending.push((line, ending));
            continue;
        }
        for (line, ending) in pending.drain(..) {
            written.keep(line, ending);
        }
        if let Some(line) = rows.line(line, &mut seen) {
            written.keep(&line, ending);
        }
    }
    written.add(rows.missing(&seen));
    for (line, ending) in pending {
        written.keep(line, ending);
    }
    for row in rows.added() {
        written.add([String::new()]);
        written.add(block(after, row).lines().map(str::to_owned));
    }
    written.text
}

/// A line and what ends it; the last line of a text may have no end.
fn parted(line: &str) -> (&str, &str) {
    let said = line.strip_suffix('\n').unwrap_or(line);
    let said = match line.ends_with("\r\n") {
        true => &said[..said.len() - 1],
        false => said,
    };
    line.split_at(said.len())
}

/// A text as it is written anew: lines keep what ends them, and new ones end as
/// the line before them does.
struct Written {
    text: String,
    ending: String,
}

impl Written {
    /// Nothing yet; lines will end as the first of this text does.
    fn of(text: &str) -> Written {
        let first = text.split_inclusive('\n').next().map(parted);
        let ending = first.map(|(_, ending)| ending);
        Written {
            text: String::new(),
            ending: ending
                .filter(|ending| !ending.is_empty())
                .unwrap_or("\n")
                .to_owned(),
        }
    }

    /// Takes a line with what ends it.
    fn keep(&mut self, line: &str, ending: &str) {
        if !self.text.is_empty() && !self.text.ends_with('\n') {
            self.text.push_str(&self.ending);
        }
        self.text.push_str(line);
        self.text.push_str(ending);
        if !ending.is_empty() {
            self.ending = ending.to_owned();
        }
    }

    /// Takes new lines.
    fn add(&mut self, lines: impl IntoIterator<Item = String>) {
        for line in lines {
            let ending = self.ending.clone();
            self.keep(&line, &ending);
        }
    }
}

/// The first word of a line, without its comment.
fn first_word(line: &str) -> Option<&str> {
    line.split('#').next()?.split_whitespace().next()
}

/// A text with the indent and the comment of the line in whose place it comes;
/// where no text comes the comment, if there is one.
fn in_place_of(line: &str, text: Option<String>) -> Option<String> {
    let indent: String = line
        .chars()
        .take_while(|letter| letter.is_whitespace())
        .collect();
    let comment = line.split_once('#').map(|(_, comment)| comment);
    match (text, comment) {
        (Some(text), Some(comment)) => Some(format!("{indent}{text}  #{comment}")),
        (Some(text), None) => Some(indent + &text),
        (None, Some(comment)) => Some(format!("{indent}#{comment}")),
        (None, None) => None,
    }
}

/// The rows of a text, one after the other.
struct Rows<'a> {
    before: &'a Schema,
    after: &'a Schema,
    next: [usize; 2],
    row: Option<RowId>,
}

impl Rows<'_> {
    /// The next row begins, an attribute or a class.
    fn begin(&mut self, is_attribute: bool) {
        let next = &mut self.next[usize::from(!is_attribute)];
        let number = *next;
        *next += 1;
        self.row = Some(match is_attribute {
            true => RowId::attribute(number),
            false => RowId::class(number),
        });
    }

    /// What a row says under a word, before and after; its head is under the word
    /// that begins it.
    fn said(&self, word: &str) -> Option<[Option<String>; 2]> {
        let row = self.row?;
        let said = |schema: &Schema| match word {
            "attribute" | "class" => Some(head(schema, row)),
            _ => lines(schema, row)
                .into_iter()
                .find(|line| first_word(line) == Some(word)),
        };
        Some([said(self.before), said(self.after)])
    }

    /// A line as it is to be written, if at all.
    fn line(&self, line: &str, seen: &mut Vec<String>) -> Option<String> {
        let word = first_word(line)?;
        let again = seen.iter().any(|seen| seen == word);
        seen.push(word.to_owned());
        let [before, after] = self.said(word)?;
        if before == after {
            return Some(line.to_owned());
        }
        let list = List::ALL.into_iter().find(|list| list.word() == word);
        let text = match list {
            Some(list) => self.listed(list, line, again),
            None => after.filter(|_| !again),
        };
        in_place_of(line, text)
    }

    /// A line of a list: what stays, in its order and by its new names, and behind
    /// it, in the first such line, what has come.
    fn listed(&self, list: List, line: &str, again: bool) -> Option<String> {
        let class = self.row?.number;
        let (before, after) = (
            self.before.classes.get(class)?,
            self.after.classes.get(class)?,
        );
        let (before, after) = (before.list(list), after.list(list));
        let row = |number: &u16| RowId {
            table: list.table(),
            number: usize::from(*number),
        };
        let said = line.split('#').next()?.split_whitespace().skip(1);
        let numbered = |name: &str| {
            before
                .iter()
                .find(|number| self.before.name(row(number)).eq_ignore_ascii_case(name))
        };
        let stays = said
            .filter_map(numbered)
            .filter(|number| after.contains(number));
        let come = after
            .iter()
            .filter(|number| !again && !before.contains(number));
        let names: Vec<_> = stays
            .chain(come)
            .map(|number| self.after.name(row(number)))
            .collect();
        (!names.is_empty()).then(|| format!("{} {}", list.word(), names.join(" ")))
    }

    /// Lines of the row that it did not have before.
    fn missing(&self, seen: &[String]) -> Vec<String> {
        let Some(row) = self.row else {
            return Vec::new();
        };
        let before = lines(self.before, row);
        let is_new = |line: &String| {
            let word = first_word(line).unwrap_or_default();
            !before.contains(line) && !seen.iter().any(|seen| seen == word)
        };
        let lines = lines(self.after, row).into_iter().filter(is_new);
        lines.map(|line| format!("  {line}")).collect()
    }

    /// The rows that the text did not have.
    fn added(&self) -> impl Iterator<Item = RowId> {
        let next = self.next;
        self.after
            .rows()
            .filter(move |row| row.number >= next[row.table as usize])
    }
}
