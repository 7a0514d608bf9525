//! The commands, and which of them a command line asks for.

mod change;
mod check;
mod diff;
mod explain;
mod export;
mod import;
mod list;
mod man;
mod page;
mod session;
mod show;
mod tree;

pub use tree::children;

use crate::arguments::Arguments;
use crate::failure::Failure;
use crate::opened::Opened;
use crate::words::printable;
use std::ffi::OsString;
use std::io::{Read, Write};

/// Where a command reads and writes.
pub struct Io<'a> {
    /// Standard input.
    pub input: &'a mut dyn Read,
    /// Standard output.
    pub out: &'a mut dyn Write,
    /// Standard error.
    pub err: &'a mut dyn Write,
    /// Whether the output goes to a terminal.
    pub is_terminal: bool,
}

impl Io<'_> {
    /// Writes words to the output.
    pub fn say(&mut self, words: &str) -> Result<(), Failure> {
        Ok(self.out.write_all(words.as_bytes())?)
    }

    /// Writes a sheet to the output, which no terminal can show.
    pub fn give(&mut self, sheet: &[u8]) -> Result<(), Failure> {
        match self.is_terminal {
            true => Err(Failure::unusable(
                "a sheet is no text: send the output to a file, with > FILE",
            )),
            false => Ok(self.out.write_all(sheet)?),
        }
    }
}

/// One command.
pub struct Command {
    /// Its word.
    pub name: &'static str,
    /// How it is used, with its word.
    pub usage: &'static str,
    /// What it does, in a line.
    pub summary: &'static str,
    /// Its whole help.
    pub help: &'static str,
    /// Options that stand alone.
    pub alone: &'static [&'static str],
    /// Options with a value behind them.
    pub valued: &'static [&'static str],
    /// What does it.
    pub act: fn(&Arguments, &mut Io) -> Result<(), Failure>,
}

/// All commands, in the order in which help lists them.
pub const COMMANDS: &[&Command] = &[
    &check::COMMAND,
    &list::COMMAND,
    &show::COMMAND,
    &tree::COMMAND,
    &explain::COMMAND,
    &change::COMMAND,
    &diff::COMMAND,
    &import::COMMAND,
    &export::COMMAND,
    &page::COMMAND,
    &man::COMMAND,
];

/// Does what a command line asks for and gives the exit code: 0 done, 1 refused,
/// 2 cannot be read or used.
pub fn run(words: &[OsString], io: &mut Io) -> u8 {
    let done = act(words, io).and_then(|()| Ok(io.out.flush()?));
    let Err(failure) = done else {
        return 0;
    };
    let flushed = io.out.flush().is_ok();
    if let Some(words) = failure.words() {
        // Nobody is left to tell where this fails too.
        let _ = writeln!(io.err, "{}", printable(words.trim_end()));
    }
    if flushed { failure.code() } else { 2 }
}

fn act(words: &[OsString], io: &mut Io) -> Result<(), Failure> {
    let Some((name, words)) = words.split_first() else {
        return Err(Failure::unusable(overview()));
    };
    let name = name.to_string_lossy();
    if matches!(name.as_ref(), "--help" | "-h" | "help") {
        return help(words.first(), io);
    }
    if matches!(name.as_ref(), "--version" | "-V") {
        return io.say(concat!("keeper ", env!("CARGO_PKG_VERSION"), "\n"));
    }
    let command = find(&name)?;
    if words.iter().any(|word| word == "--help" || word == "-h") {
        return io.say(&full_help(command));
    }
    let arguments = Arguments::parse(words, command.alone, command.valued)?;
    (command.act)(&arguments, io)
}

fn find(name: &str) -> Result<&'static Command, Failure> {
    let found = COMMANDS.iter().find(|command| command.name == name);
    let names: Vec<_> = COMMANDS.iter().map(|command| command.name).collect();
    let words = || format!("{name}: no such command; there are {}", names.join(", "));
    found.copied().ok_or_else(|| Failure::unusable(words()))
}

fn help(name: Option<&OsString>, io: &mut Io) -> Result<(), Failure> {
    match name {
        None => io.say(&overview()),
        Some(name) => io.say(&full_help(find(&name.to_string_lossy())?)),
    }
}

fn full_help(command: &Command) -> String {
    format!(
        "keeper {}\n\n{}. {}\n",
        command.usage,
        command.summary,
        command.help.trim()
    )
}

/// What `keeper --help` says.
fn overview() -> String {
    let line = |command: &&Command| format!("  {:<9} {}\n", command.name, command.summary);
    let lines: String = COMMANDS.iter().map(line).collect();
    format!(
        "keeper COMMAND ..: see, check and change a directory schema, decided by the proved keeper\n\n{lines}
A FILE is a sheet, the text form or LDIF, told apart by content; - is standard input.
Exit codes: 0 done, 1 refused, 2 cannot be read or used.
keeper COMMAND --help says more, with an example.\n"
    )
}

/// The schema that a command's only operand names.
fn opened(arguments: &Arguments, usage: &str, io: &mut Io) -> Result<Opened, Failure> {
    let [path] = arguments.exactly(usage)?;
    Opened::read(path, io.input, io.err)
}
