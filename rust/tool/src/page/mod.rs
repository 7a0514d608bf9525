//! A schema as one page of HTML that needs nothing else: no script, no other
//! file, no network. A script only adds the search box.

mod classes;
mod html;
mod layout;
mod picture;
mod tables;

use crate::opened::counted;
use crate::rows::{Schema, Table};
use html::escaped;
use keeper::Stores;

/// The page of an accepted schema under a title.
pub fn page(title: &str, schema: &Schema, stores: &Stores) -> String {
    let counts = [Table::Attributes, Table::Classes].map(|table| counted(schema, table));
    let classes = (0..schema.classes.len()).map(|class| classes::section(schema, stores, class));
    let parts = [
        ("title", escaped(title)),
        ("style", include_str!("style.css").to_owned()),
        ("counts", counts.join(", ")),
        ("picture", picture::picture(schema)),
        ("class_table", tables::classes(schema, stores)),
        ("attributes", tables::attributes(schema)),
        ("classes", classes.collect()),
        ("script", include_str!("search.js").to_owned()),
    ];
    filled(include_str!("page.html"), &parts)
}

/// A text with each `{{name}}` replaced by the part of that name.
fn filled(text: &str, parts: &[(&str, String)]) -> String {
    let mut pieces = text.split("{{");
    let mut filled = pieces.next().unwrap_or_default().to_owned();
    for piece in pieces {
        let (name, rest) = piece.split_once("}}").unwrap_or((piece, ""));
        let part = parts.iter().find(|(known, _)| *known == name);
        filled.push_str(part.map_or("", |(_, part)| part));
        filled.push_str(rest);
    }
    filled
}
