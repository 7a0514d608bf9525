//! The words of a command line: options and what they are about.

use crate::failure::Failure;
use std::ffi::{OsStr, OsString};

/// What a command was given.
#[derive(Debug, Default)]
pub struct Arguments {
    options: Vec<String>,
    values: Vec<(String, OsString)>,
    /// What is no option, in its order.
    pub operands: Vec<OsString>,
}

impl Arguments {
    /// Takes the words apart: options that stand alone, options with a value
    /// behind them, and the rest. Behind `--` all is rest; `-` and negative
    /// numbers are no options.
    pub fn parse(
        words: &[OsString],
        alone: &[&str],
        valued: &[&str],
    ) -> Result<Arguments, Failure> {
        let mut arguments = Arguments::default();
        let mut words = words.iter();
        while let Some(word) = words.next() {
            match word.to_str() {
                Some("--") => arguments.operands.extend(words.by_ref().cloned()),
                Some(option) if alone.contains(&option) => {
                    arguments.options.push(option.to_owned())
                }
                Some(option) if valued.contains(&option) => {
                    let missing = || Failure::unusable(format!("{option}: a word must follow"));
                    let value = words.next().ok_or_else(missing)?;
                    arguments.values.push((option.to_owned(), value.clone()));
                }
                Some(option) if is_option(option) => return Err(unknown(option, alone, valued)),
                _ => arguments.operands.push(word.clone()),
            }
        }
        Ok(arguments)
    }

    /// Whether an option was given.
    pub fn has(&self, option: &str) -> bool {
        self.options.iter().any(|given| given == option)
    }

    /// The value of an option, the last where it was given more than once.
    pub fn value(&self, option: &str) -> Option<&OsStr> {
        let given = self.values.iter().rfind(|(given, _)| given == option);
        given.map(|(_, value)| value.as_os_str())
    }

    /// So many operands, no more and no fewer.
    pub fn exactly<const N: usize>(&self, usage: &str) -> Result<[&OsStr; N], Failure> {
        let operands: Vec<_> = self.operands.iter().map(OsString::as_os_str).collect();
        let given = operands.len();
        let words = || match given < N {
            true => format!("something is missing; it is: keeper {usage}"),
            false => format!("too many words; it is: keeper {usage}"),
        };
        operands.try_into().map_err(|_| Failure::unusable(words()))
    }
}

/// A word as text.
pub fn text(word: &OsStr) -> Result<String, Failure> {
    let words = || Failure::unusable(format!("{}: not UTF-8", word.to_string_lossy()));
    word.to_str().map(str::to_owned).ok_or_else(words)
}

fn is_option(word: &str) -> bool {
    let rest = word.strip_prefix('-');
    rest.is_some_and(|rest| !rest.is_empty() && rest.parse::<i64>().is_err())
}

fn unknown(option: &str, alone: &[&str], valued: &[&str]) -> Failure {
    let known: Vec<_> = alone.iter().chain(valued).copied().collect();
    let known = match known.is_empty() {
        true => "this command has none but --help".to_owned(),
        false => format!("there are {} and --help", known.join(", ")),
    };
    Failure::unusable(format!("{option}: no such option; {known}"))
}
