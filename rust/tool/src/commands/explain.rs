//! `keeper explain`: what a number means.

use super::{Command, Io};
use crate::arguments::{Arguments, text};
use crate::failure::Failure;
use crate::numbers::{Section, known, retired, section_of, sections, wrapped};

pub const COMMAND: Command = Command {
    name: "explain",
    usage: "explain [NUMBER]",
    summary: "Says what a number means and what can be done about it",
    help: "Without a number, all numbers are listed with their names. Of one that is not used
any more it is told what it was.

Example:

    $ keeper explain 13
    13, name taken
    ..",
    alone: &[],
    valued: &[],
    act,
};

fn act(arguments: &Arguments, io: &mut Io) -> Result<(), Failure> {
    if arguments.operands.is_empty() {
        let line = |section: Section| format!("{:>2}  {}\n", section.number, section.name);
        return io.say(&sections().map(line).collect::<String>());
    }
    let [word] = arguments.exactly(COMMAND.usage)?;
    let word = text(word)?;
    let number = word.parse().ok();
    if let Some(told) = number.and_then(retired) {
        let told = wrapped(&told, "  ", 80);
        return io.say(&format!("{word}, not used any more\n{told}"));
    }
    let unknown = || Failure::unusable(format!("{word}: no such number; there are {}", known()));
    let section = number.and_then(section_of).ok_or_else(unknown)?;
    let meaning = wrapped(&section.meaning, "  ", 80);
    let advice = wrapped(&format!("Do: {}", section.advice), "  ", 80);
    let calls = wrapped(&format!("Given by: {}.", section.calls), "  ", 80);
    io.say(&format!(
        "{}, {}\n{meaning}{advice}{calls}",
        section.number, section.name
    ))
}
