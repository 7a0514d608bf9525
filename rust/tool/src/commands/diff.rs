//! `keeper diff`: the changes that lead from one schema to another.

use super::{Command, Io};
use crate::arguments::Arguments;
use crate::changes::Change;
use crate::diff::played;
use crate::failure::Failure;
use crate::opened::Opened;

pub const COMMAND: Command = Command {
    name: "diff",
    usage: "diff OLD NEW",
    summary: "Tells the changes that lead from one schema to another",
    help: "Rows with one schemaIDGUID count as the same row. The changes are printed as
keeper change --from takes them; each was made to OLD by the keeper, in this
order. What no change can do, or what the keeper refuses, stands behind # and
`cannot be changed`, and gives exit code 1; so does another order of the rows,
among which an added row comes last. Where nothing differs, nothing is printed.

Example:

    $ keeper diff forest.sheet new.sheet
    rename attribute areaHa woodedHa
    add optional parcel soilType
    # cannot be changed: attribute 27 `standAge`: oMSyntax: 2, and would be 10",
    alone: &[],
    valued: &[],
    act,
};

fn act(arguments: &Arguments, io: &mut Io) -> Result<(), Failure> {
    let [old, new] = arguments.exactly(COMMAND.usage)?;
    if old == "-" && new == "-" {
        return Err(Failure::unusable(
            "only one of the two schemas can be standard input",
        ));
    }
    let old = Opened::read(old, io.input, io.err)?;
    let new = Opened::read(new, io.input, io.err)?;
    let played = played(&old.schema, &old.stores, &new.schema)?;
    let changes = played.changes.iter().map(|change| match change {
        Change::Add { block, .. } => format!("add {}", block.text()),
        _ => format!("{}\n", change.words()),
    });
    let left = played
        .left
        .iter()
        .map(|words| format!("# cannot be changed: {words}\n"));
    io.say(&changes.chain(left).collect::<String>())?;
    match played.left.is_empty() {
        true => Ok(()),
        false => Err(Failure::Refused(String::new())),
    }
}
