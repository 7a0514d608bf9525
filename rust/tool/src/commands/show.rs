//! `keeper show`: one row with all its fields.

use super::list::marks;
use super::{Command, Io};
use crate::arguments::{Arguments, text};
use crate::columns::aligned;
use crate::failure::Failure;
use crate::guess::nearest_row;
use crate::kept::Kept;
use crate::opened::Opened;
use crate::rows::{Attribute, Class, Common, List, RowId, Schema, Table};
use crate::through::{Coming, allowed, demanded};
use crate::words::{dotted, guid_text, hex};

pub const COMMAND: Command = Command {
    name: "show",
    usage: "show FILE NAME",
    summary: "Shows a row with all its fields",
    help: "Of a class also which classes it reaches and what it demands and allows, with the
class through which each attribute comes. A name is found in either table, case
aside.

Example:

    $ keeper show samples/forest.sheet stand
    class 18 stand
    ..
    demands
      objectClass           through top
    ..",
    alone: &[],
    valued: &[],
    act,
};

fn act(arguments: &Arguments, io: &mut Io) -> Result<(), Failure> {
    let [path, name] = arguments.exactly(COMMAND.usage)?;
    let name = text(name)?;
    let opened = Opened::read(path, io.input, io.err)?;
    let schema = &opened.schema;
    let missing = || {
        let words = nearest_row(schema, &name);
        Failure::unusable(format!("{}: {words}", opened.given.name))
    };
    let row = schema
        .rows()
        .find(|row| schema.find(row.table, &name) == Some(*row))
        .ok_or_else(missing)?;
    let head = format!("{} {} {}\n", row.table.word(), row.number, schema.name(row));
    let (attribute, class) = (
        schema.attributes.get(row.number),
        schema.classes.get(row.number),
    );
    let body = match (row.table, attribute, class) {
        (Table::Attributes, Some(attribute), _) => attribute_text(schema, row, attribute),
        (Table::Classes, _, Some(class)) => class_text(&opened, row, class),
        _ => String::new(),
    };
    io.say(&(head + &body))
}

/// Names and values in two columns, indented.
fn table(lines: &[(String, String)]) -> String {
    let cells: Vec<_> = lines
        .iter()
        .map(|(name, value)| vec![format!("  {name}"), value.clone()])
        .collect();
    aligned(&cells)
}

fn common_lines(row: &Common) -> Vec<(String, String)> {
    let line = |name: &str, value: String| (name.to_owned(), value);
    let mut lines = vec![
        line("identifier", dotted(&row.arcs)),
        line("schemaIDGUID", guid_text(&row.guid)),
        line("systemFlags", row.flags.to_string()),
    ];
    let marks = marks(row);
    if !marks.is_empty() {
        lines.push(line("marks", marks));
    }
    lines
}

fn attribute_text(schema: &Schema, row: RowId, attribute: &Attribute) -> String {
    let mut lines = common_lines(&attribute.common);
    let mut line = |name: &str, value: Option<String>| {
        lines.extend(value.map(|value| (name.to_owned(), value)))
    };
    line(
        "attributeSyntax",
        Some(format!("2.5.5.{}", attribute.syntax)),
    );
    line("oMSyntax", Some(attribute.om_syntax.to_string()));
    let object = Some(&attribute.object_class).filter(|object| !object.is_empty());
    line("oMObjectClass", object.map(|object| hex(object)));
    let values = if attribute.single { "one" } else { "many" };
    line("values", Some(values.to_owned()));
    line("rangeLower", attribute.lower.map(|end| end.to_string()));
    line("rangeUpper", attribute.upper.map(|end| end.to_string()));
    line("linkID", attribute.link.map(|id| id.to_string()));
    line("mAPIID", attribute.mapi.map(|id| id.to_string()));
    let users = users(schema, row);
    line("named by", Some(users).filter(|users| !users.is_empty()));
    table(&lines)
}

/// The classes that name an attribute.
fn users(schema: &Schema, row: RowId) -> String {
    let names = |class: &&Class| {
        let number = |number: &u16| usize::from(*number) == row.number;
        let lists = List::ALL
            .into_iter()
            .filter(|list| list.table() == Table::Attributes);
        let mut entries = lists.flat_map(|list| class.list(list).iter());
        entries.any(number) || class.naming.as_ref().is_some_and(number)
    };
    let users = schema.classes.iter().filter(names);
    let users: Vec<_> = users
        .map(|class| crate::words::shown(&class.common.name))
        .collect();
    users.join(", ")
}

fn class_text(opened: &Opened, row: RowId, class: &Class) -> String {
    let schema = &opened.schema;
    let mut lines = common_lines(&class.common);
    let mut line = |name: &str, value: String| lines.push((name.to_owned(), value));
    line("category", class.category_word().to_owned());
    line("superclass", schema.name(RowId::class(class.superclass)));
    let depth = u16::try_from(row.number).map(|number| opened.stores.depth(number));
    line(
        "depth",
        depth.map_or_else(|_| String::new(), |answer| answer.place.to_string()),
    );
    if let Some(naming) = class.naming {
        line("naming attribute", schema.name(RowId::attribute(naming)));
    }
    for list in List::ALL {
        let names = names(schema, list.table(), class.list(list).iter().copied());
        if !names.is_empty() {
            line(list.title(), names);
        }
    }
    let reached = Kept::Reached.of(&opened.stores, row.number);
    line(
        "reaches",
        names(schema, Table::Classes, reached.into_iter()),
    );
    let demanded = demanded(schema, &opened.stores, row.number);
    let allowed = allowed(schema, &opened.stores, row.number);
    table(&lines)
        + &coming_text(schema, "demands", &demanded)
        + &coming_text(schema, "allows", &allowed)
}

fn names(schema: &Schema, table: Table, numbers: impl Iterator<Item = u16>) -> String {
    let row = |number: u16| RowId {
        table,
        number: usize::from(number),
    };
    let names: Vec<_> = numbers.map(|number| schema.name(row(number))).collect();
    names.join(", ")
}

fn coming_text(schema: &Schema, word: &str, coming: &[Coming]) -> String {
    let line = |coming: &Coming| {
        let through: Vec<_> = coming
            .through
            .iter()
            .map(|class| schema.name(RowId::class(*class)))
            .collect();
        (
            schema.name(coming.attribute),
            format!("through {}", through.join(", ")),
        )
    };
    let lines: Vec<_> = coming.iter().map(line).collect();
    match lines.is_empty() {
        true => format!("{word} nothing\n"),
        false => format!("{word}\n{}", table(&lines)),
    }
}
