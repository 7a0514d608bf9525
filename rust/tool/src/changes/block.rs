//! An added row, in the lines of the text form.

use crate::text::{Fault, Line, Source};

/// Head and lines of a row, comments left out, each with its line in the list of
/// changes, so that a fault names it.
#[derive(Clone, Debug, Default, PartialEq, Eq)]
pub struct Block(Vec<(usize, String)>);

impl Block {
    /// The lines of a text without comments, counted from 1.
    pub fn of(text: &str) -> Block {
        let lines = (1..).zip(text.lines().map(str::to_owned));
        Block(lines.collect())
    }

    /// Takes in a line.
    pub fn push(&mut self, at: usize, line: &str) {
        self.0.push((at, line.to_owned()));
    }

    /// The first line: table, name and identifier.
    pub fn head(&self) -> &str {
        self.0.first().map_or("", |(_, line)| line.trim())
    }

    /// All lines.
    pub fn text(&self) -> String {
        let lines = self.0.iter().map(|(_, line)| format!("{line}\n"));
        lines.collect()
    }

    /// All lines, to be changed.
    pub fn lines_mut(&mut self) -> impl Iterator<Item = &mut String> {
        self.0.iter_mut().map(|(_, line)| line)
    }

    /// The row that the lines say.
    pub fn source(&self) -> Result<Source<'_>, Fault> {
        let mut lines = self.0.iter().filter_map(|(at, text)| said(*at, text));
        let nothing = || Fault {
            line: 1,
            what: "no row".to_owned(),
        };
        let head = lines.next().ok_or_else(nothing)?;
        let lines: Vec<Line> = lines.collect();
        let mut heads = lines.iter();
        match heads.find(|line| matches!(line.word, "attribute" | "class")) {
            Some(second) => Err(second.fault("a second row in one change")),
            None => Ok(Source { head, lines }),
        }
    }
}

/// The words of a line, `#` like any other letter.
fn said(at: usize, text: &str) -> Option<Line<'_>> {
    let mut words = text.split_whitespace();
    let word = words.next()?;
    let rest = words.collect();
    Some(Line { at, word, rest })
}
