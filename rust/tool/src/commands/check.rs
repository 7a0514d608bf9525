//! `keeper check`: whether the keeper accepts a schema.

use super::{Command, Io, opened};
use crate::arguments::Arguments;
use crate::failure::Failure;
use crate::opened::counted;
use crate::rows::Table;

pub const COMMAND: Command = Command {
    name: "check",
    usage: "check FILE",
    summary: "Says whether the keeper accepts a schema, or why not",
    help: "An accepted schema is told with its counts. A refused one is told on standard
error with the number of the rule, the rows that break it by number and name,
what the rule means and what can be done; exit code 1.

Example:

    $ keeper check samples/refused.sheet
    samples/refused.sheet: refused
    13, name taken: attribute 1 `areaHa` and attribute 2 `AreaHA`
    ..",
    alone: &[],
    valued: &[],
    act,
};

fn act(arguments: &Arguments, io: &mut Io) -> Result<(), Failure> {
    let opened = opened(arguments, COMMAND.usage, io)?;
    let counts = [Table::Attributes, Table::Classes].map(|table| counted(&opened.schema, table));
    io.say(&format!(
        "{}: accepted: {}\n",
        opened.given.name,
        counts.join(", ")
    ))
}
