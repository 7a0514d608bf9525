//! The tables of attributes and classes.

use super::html::{anchor, escaped, link, links, marks, table};
use crate::kept::Kept;
use crate::rows::{Attribute, List, RowId, Schema, Table};
use crate::words::dotted;
use keeper::Stores;

/// All attributes.
pub fn attributes(schema: &Schema) -> String {
    let rows: String = schema
        .attributes
        .iter()
        .enumerate()
        .map(|(at, row)| attribute(schema, at, row))
        .collect();
    table(
        &[
            "No",
            "Name",
            "Identifier",
            "Syntax",
            "Values",
            "Range",
            "Link",
            "Named by",
        ],
        &rows,
    )
}

fn attribute(schema: &Schema, at: usize, row: &Attribute) -> String {
    let id = RowId::attribute(at);
    let name = escaped(&schema.name(id));
    let oid = dotted(&row.common.arcs);
    let syntax = format!("2.5.5.{} · {}", row.syntax, row.om_syntax);
    let values = if row.single { "one" } else { "many" };
    let end = |end: Option<i32>| end.map(|end| end.to_string()).unwrap_or_default();
    let range = match (row.lower, row.upper) {
        (None, None) => String::new(),
        (lower, upper) => format!("{} … {}", end(lower), end(upper)),
    };
    let linked = row.link.map(|link| link.to_string()).unwrap_or_default();
    let users = links(schema, users(schema, at));
    let found = format!("{name} {oid}").to_lowercase();
    let marks = marks(&row.common);
    format!(
        "<tr id=\"{}\" data-find=\"{found}\"><td>{at}</td><th>{name}{marks}</th><td>{oid}</td><td>{syntax}</td><td>{values}</td><td>{range}</td><td>{linked}</td><td>{users}</td></tr>\n",
        anchor(id)
    )
}

/// The classes that name an attribute themselves.
fn users(schema: &Schema, attribute: usize) -> impl Iterator<Item = RowId> {
    let names = move |number: &u16| usize::from(*number) == attribute;
    let lists = || {
        List::ALL
            .into_iter()
            .filter(|list| list.table() == Table::Attributes)
    };
    let classes = schema.classes.iter().enumerate();
    let users = classes.filter(move |(_, class)| {
        let mut entries = lists().flat_map(|list| class.list(list).iter());
        entries.any(names) || class.naming.as_ref().is_some_and(names)
    });
    users.map(|(at, _)| RowId::class(at))
}

/// All classes.
pub fn classes(schema: &Schema, stores: &Stores) -> String {
    let row = |(at, row): (usize, &crate::rows::Class)| {
        let id = RowId::class(at);
        let (name, oid) = (link(schema, id), dotted(&row.common.arcs));
        let found = format!("{} {oid}", escaped(&schema.name(id))).to_lowercase();
        let above = link(schema, RowId::class(row.superclass));
        let (must, may) = (
            Kept::Demanded.of(stores, at).len(),
            Kept::Allowed.of(stores, at).len(),
        );
        let (category, marks) = (row.category_word(), marks(&row.common));
        format!(
            "<tr data-find=\"{found}\"><td>{at}</td><th>{name}{marks}</th><td>{oid}</td><td>{category}</td><td>{above}</td><td>{must}</td><td>{may}</td></tr>\n"
        )
    };
    let rows: String = schema.classes.iter().enumerate().map(row).collect();
    table(
        &[
            "No",
            "Name",
            "Identifier",
            "Category",
            "Superclass",
            "Demands",
            "Allows",
        ],
        &rows,
    )
}
