//! Rows as entries of LDIF.

use super::base64::encoded;
use super::drafts::LISTS;
use crate::rows::{Attribute, BASE, Class, Common, List, RowId, Schema};
use crate::words::dotted;

/// A schema as LDIF, attributes first and superclasses before their classes, so
/// that entries can be added in this order. Entries stand under the base.
pub fn exported(schema: &Schema, base: &str) -> String {
    let mut text = "version: 1\n".to_owned();
    for (at, row) in schema.attributes.iter().enumerate() {
        text += &entry(base, &schema.name(RowId::attribute(at)), &attribute(row));
    }
    for (at, row) in schema.classes.iter().enumerate() {
        text += &entry(base, &schema.name(RowId::class(at)), &class(schema, row));
    }
    text
}

fn entry(base: &str, name: &str, lines: &[String]) -> String {
    let head = [
        line("dn", &format!("CN={name},{base}")),
        "changetype: add".to_owned(),
        "objectClass: top".to_owned(),
    ];
    let lines: String = head.iter().chain(lines).map(|line| folded(line)).collect();
    format!("\n{lines}")
}

/// A name and its value; in base64 where the value is no SAFE-STRING of RFC 2849,
/// or ends with a space.
fn line(name: &str, value: &str) -> String {
    let is_safe = value.is_ascii()
        && !value.contains(['\0', '\n', '\r'])
        && !value.starts_with([' ', ':', '<'])
        && !value.ends_with(' ');
    match is_safe {
        true => format!("{name}: {value}"),
        false => format!("{name}:: {}", encoded(value.as_bytes())),
    }
}

/// A line of at most 76 letters, and what is left over in lines behind it.
fn folded(line: &str) -> String {
    let mut text = String::new();
    let mut width = 0;
    for letter in line.chars() {
        if width == 76 {
            text.push_str("\n ");
            width = 1;
        }
        text.push(letter);
        width += 1;
    }
    text + "\n"
}

fn common(row: &Common, kind: &str, identifier: &str) -> Vec<String> {
    let name = crate::words::shown(&row.name);
    let mut lines = vec![
        format!("objectClass: {kind}"),
        format!("cn: {name}"),
        format!("lDAPDisplayName: {name}"),
        format!("{identifier}: {}", dotted(&row.arcs)),
        format!("schemaIDGUID:: {}", encoded(&row.guid)),
        format!("systemFlags: {}", row.flags.cast_signed()),
    ];
    if row.defunct {
        lines.push("isDefunct: TRUE".to_owned());
    }
    lines
}

fn attribute(row: &Attribute) -> Vec<String> {
    let mut lines = common(&row.common, "attributeSchema", "attributeID");
    lines.push(format!("attributeSyntax: 2.5.5.{}", row.syntax));
    lines.push(format!("oMSyntax: {}", row.om_syntax));
    if !row.object_class.is_empty() {
        lines.push(format!("oMObjectClass:: {}", encoded(&row.object_class)));
    }
    let single = if row.single { "TRUE" } else { "FALSE" };
    lines.push(format!("isSingleValued: {single}"));
    let ends = [("rangeLower", row.lower), ("rangeUpper", row.upper)];
    let ends = ends.map(|(word, end)| (word, end.map(i64::from)));
    let ids = [("linkID", row.link), ("mAPIID", row.mapi)];
    let ids = ids.map(|(word, id)| (word, id.map(i64::from)));
    let numbers = ends.into_iter().chain(ids);
    lines.extend(numbers.filter_map(|(word, number)| Some(format!("{word}: {}", number?))));
    lines
}

fn class(schema: &Schema, row: &Class) -> Vec<String> {
    let mut lines = common(&row.common, "classSchema", "governsID");
    lines.push(format!("objectClassCategory: {}", row.category));
    lines.push(format!(
        "subClassOf: {}",
        schema.name(RowId::class(row.superclass))
    ));
    if let Some(naming) = row.naming {
        lines.push(format!(
            "rDNAttID: {}",
            schema.name(RowId::attribute(naming))
        ));
    }
    for list in List::ALL {
        let word = list_word(row, list);
        for number in row.list(list) {
            let entry = RowId {
                table: list.table(),
                number: usize::from(*number),
            };
            lines.push(format!("{word}: {}", schema.name(entry)));
        }
    }
    lines
}

/// The attribute of LDIF for a list. Mandatory attributes have two: the system's
/// is for rows that came with the server.
fn list_word(row: &Class, list: List) -> &'static str {
    if list == List::Mandatory && row.common.flags & BASE == 0 {
        return "mustContain";
    }
    let known = LISTS.iter().find(|(_, known)| *known == list);
    known.map_or("", |(word, _)| word)
}
