//! `keeper list`: all rows of a schema.

use super::{Command, Io, opened};
use crate::arguments::Arguments;
use crate::columns::aligned;
use crate::failure::Failure;
use crate::kept::Kept;
use crate::opened::Opened;
use crate::rows::{BASE, Common, RowId, Schema};
use crate::words::dotted;

pub const COMMAND: Command = Command {
    name: "list",
    usage: "list [--attributes] [--classes] FILE",
    summary: "Lists the rows of a schema",
    help: "A line for each row: its number, name and identifier; of a class its category and
how many attributes it demands (must) and allows (may); of an attribute its
syntax. Rows that came with the server are marked base, those no longer in use
defunct. With one of the options only that table is listed.

Example:

    $ keeper list --classes samples/forest.sheet
    no  name  oid      category  must  may  marks
    0   top   2.5.6.0  abstract  2     4    base
    ..",
    alone: &["--attributes", "--classes"],
    valued: &[],
    act,
};

fn act(arguments: &Arguments, io: &mut Io) -> Result<(), Failure> {
    let opened = opened(arguments, COMMAND.usage, io)?;
    let (attributes, classes) = (arguments.has("--attributes"), arguments.has("--classes"));
    let both = attributes == classes;
    let mut tables = Vec::new();
    if both || attributes {
        tables.push(aligned(&attribute_lines(&opened.schema)));
    }
    if both || classes {
        tables.push(aligned(&class_lines(&opened)));
    }
    io.say(&tables.join("\n"))
}

fn cells(cells: &[&str]) -> Vec<String> {
    cells.iter().map(|cell| (*cell).to_owned()).collect()
}

fn attribute_lines(schema: &Schema) -> Vec<Vec<String>> {
    let mut lines = vec![cells(&["no", "name", "oid", "syntax", "values", "marks"])];
    for (at, row) in schema.attributes.iter().enumerate() {
        let syntax = format!("2.5.5.{} {}", row.syntax, row.om_syntax);
        let values = if row.single { "single" } else { "multi" };
        let name = schema.name(RowId::attribute(at));
        let oid = dotted(&row.common.arcs);
        lines.push(cells(&[
            &at.to_string(),
            &name,
            &oid,
            &syntax,
            values,
            &marks(&row.common),
        ]));
    }
    lines
}

fn class_lines(opened: &Opened) -> Vec<Vec<String>> {
    let mut lines = vec![cells(&[
        "no", "name", "oid", "category", "must", "may", "marks",
    ])];
    for (at, row) in opened.schema.classes.iter().enumerate() {
        let count = |kept: Kept| kept.of(&opened.stores, at).len().to_string();
        let name = opened.schema.name(RowId::class(at));
        let oid = dotted(&row.common.arcs);
        let (must, may) = (count(Kept::Demanded), count(Kept::Allowed));
        let category = row.category_word();
        lines.push(cells(&[
            &at.to_string(),
            &name,
            &oid,
            category,
            &must,
            &may,
            &marks(&row.common),
        ]));
    }
    lines
}

/// What is to be known of a row at once: base, defunct.
pub fn marks(row: &Common) -> String {
    let marks = [(row.flags & BASE != 0, "base"), (row.defunct, "defunct")];
    let marks: Vec<_> = marks
        .iter()
        .filter(|(is, _)| *is)
        .map(|(_, mark)| *mark)
        .collect();
    marks.join(" ")
}
