//! The text as rows, each with its lines.

use std::fmt;

/// A line that cannot be understood.
#[derive(Clone, Debug, PartialEq, Eq)]
pub struct Fault {
    /// The line, counted from 1.
    pub line: usize,
    /// What is wrong with it.
    pub what: String,
}

impl fmt::Display for Fault {
    fn fmt(&self, out: &mut fmt::Formatter) -> fmt::Result {
        write!(out, "line {}: {}", self.line, self.what)
    }
}

/// A line that says something: its first word and the words after it.
#[derive(Clone, Debug, PartialEq, Eq)]
pub struct Line<'a> {
    /// Which line of the text, counted from 1.
    pub at: usize,
    /// The first word.
    pub word: &'a str,
    /// The other words.
    pub rest: Vec<&'a str>,
}

impl<'a> Line<'a> {
    fn read(at: usize, text: &'a str) -> Option<Line<'a>> {
        let said = text.split('#').next()?;
        let mut words = said.split_whitespace();
        let word = words.next()?;
        let rest = words.collect();
        Some(Line { at, word, rest })
    }

    /// This line with something wrong with it.
    pub fn fault(&self, what: &str) -> Fault {
        Fault {
            line: self.at,
            what: format!("{}: {what}", self.word),
        }
    }

    /// The only word after the first.
    pub fn one(&self) -> Result<&'a str, Fault> {
        match self.rest.as_slice() {
            [one] => Ok(one),
            _ => Err(self.fault("one word must follow")),
        }
    }

    /// The only word after the first, as a number.
    pub fn number<N: std::str::FromStr>(&self) -> Result<N, Fault> {
        let number = self.one()?.parse();
        number.map_err(|_| self.fault("not a number that fits"))
    }

    /// The only word after the first, as bytes in hex digits.
    pub fn bytes(&self) -> Result<Vec<u8>, Fault> {
        let digits = self.one()?.replace('-', "");
        let fault = || self.fault("not whole bytes in hex digits");
        let digits: Option<Vec<u32>> = digits.chars().map(|digit| digit.to_digit(16)).collect();
        let digits = digits.filter(|digits| digits.len().is_multiple_of(2));
        let digits = digits.ok_or_else(fault)?;
        let byte = |pair: &[u32]| u8::try_from(16 * pair[0] + pair[1]);
        let bytes: Result<Vec<u8>, _> = digits.chunks_exact(2).map(byte).collect();
        bytes.map_err(|_| fault())
    }
}

/// The arcs of an object identifier: numbers of 32 bits with dots between.
pub fn arcs(identifier: &str) -> Option<Vec<u32>> {
    let is_number = |arc: &str| arc.bytes().all(|digit| digit.is_ascii_digit());
    let arcs = identifier.split('.');
    arcs.map(|arc| arc.parse().ok().filter(|_| is_number(arc)))
        .collect()
}

/// A row's first line and the lines that belong to it.
#[derive(Clone, Debug, PartialEq, Eq)]
pub struct Source<'a> {
    /// `attribute NAME IDENTIFIER` or `class NAME IDENTIFIER`.
    pub head: Line<'a>,
    /// What is said of the row.
    pub lines: Vec<Line<'a>>,
}

impl<'a> Source<'a> {
    /// All rows of a text.
    pub fn all(text: &'a str) -> Result<Vec<Source<'a>>, Fault> {
        let mut rows: Vec<Source> = Vec::new();
        let lines = (1..).zip(text.lines());
        for line in lines.filter_map(|(at, text)| Line::read(at, text)) {
            if matches!(line.word, "attribute" | "class") {
                let lines = Vec::new();
                rows.push(Source { head: line, lines });
            } else if let Some(row) = rows.last_mut() {
                row.lines.push(line);
            } else {
                return Err(line.fault("no row before it"));
            }
        }
        Ok(rows)
    }

    /// Whether the row is an attribute; else it is a class.
    pub fn is_attribute(&self) -> bool {
        self.head.word == "attribute"
    }

    /// The row's name and identifier, as they stand.
    pub fn head(&self) -> Result<(&'a str, &'a str), Fault> {
        match self.head.rest.as_slice() {
            [name, identifier] => Ok((name, identifier)),
            _ => Err(self.head.fault("a name and an identifier must follow")),
        }
    }
}
