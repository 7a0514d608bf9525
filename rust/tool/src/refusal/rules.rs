//! Which rows break a rule, 12 to 29, 38 to 40 or 45, after the keeper has said
//! that this row does.

use super::named::named;
use crate::rows::{Attribute, Class, Common, List, RowId, Schema, Table};
use crate::words::{dotted, guid_text, hex, joined};

/// What of a row breaks a rule, its rivals too, in words.
pub fn broken(number: u64, schema: &Schema, row: RowId) -> String {
    let told = schema.told(row);
    let detail = match (number, row.table) {
        (12..=16, _) => schema
            .common(row)
            .and_then(|common| any(number, schema, common)),
        (_, Table::Attributes) => {
            let row = schema.attributes.get(row.number);
            row.and_then(|row| attribute(number, schema, row))
        }
        (_, Table::Classes) => {
            let class = schema.classes.get(row.number);
            class.and_then(|class| self::class(number, schema, row.number, class))
        }
    };
    match (number, detail) {
        (13, Some(rivals)) => rivals,
        (_, Some(detail)) => format!("{told}: {detail}"),
        (_, None) => told,
    }
}

/// Rules that bind rows of both tables.
fn any(number: u64, schema: &Schema, row: &Common) -> Option<String> {
    let same =
        |key: &dyn Fn(&Common) -> bool| rivals(schema, |row| schema.common(row).is_some_and(key));
    match number {
        12 => Some("its name".to_owned()),
        13 => Some(same(&|other| other.name.eq_ignore_ascii_case(&row.name))),
        14 => Some(format!("its identifier is {}", dotted(&row.arcs))),
        15 => {
            let rivals = same(&|other| other.arcs == row.arcs);
            Some(format!("identifier {} of {rivals}", dotted(&row.arcs)))
        }
        16 => {
            let rivals = same(&|other| other.guid == row.guid);
            Some(format!("GUID {} of {rivals}", guid_text(&row.guid)))
        }
        _ => None,
    }
}

/// All rows that have one key.
fn rivals(schema: &Schema, has_key: impl Fn(RowId) -> bool) -> String {
    let rows: Vec<_> = schema
        .rows()
        .filter(|row| has_key(*row))
        .map(|row| schema.told(row))
        .collect();
    joined(&rows)
}

fn attribute(number: u64, schema: &Schema, row: &Attribute) -> Option<String> {
    let (syntax, om_syntax) = (row.syntax, row.om_syntax);
    let object = hex(&row.object_class).to_uppercase();
    Some(match number {
        24 => {
            let rivals = holders(schema, |other| other.mapi == row.mapi);
            format!("mAPIID {} of {rivals}", row.mapi?)
        }
        25 => format!("its range is {} to {}", row.lower?, row.upper?),
        26 => format!("attributeSyntax 2.5.5.{syntax} with oMSyntax {om_syntax}"),
        27 => format!("attributeSyntax 2.5.5.{syntax} with oMObjectClass {object}"),
        28 => {
            let rivals = holders(schema, |other| other.link == row.link);
            format!("linkID {} of {rivals}", row.link?)
        }
        29 => lone(schema, row.link?)?,
        45 => nameless(row.link?, syntax),
        _ => return None,
    })
}

/// All attributes of which something holds.
fn holders(schema: &Schema, holds: impl Fn(&Attribute) -> bool) -> String {
    let attributes = schema.attributes.iter().enumerate();
    let rows = attributes
        .filter(|(_, row)| holds(row))
        .map(|(at, _)| RowId::attribute(at));
    joined(&rows.map(|row| schema.told(row)).collect::<Vec<_>>())
}

/// A back link whose forward link is not there, or not in use.
fn lone(schema: &Schema, link: u32) -> Option<String> {
    let forward = link.checked_sub(1)?;
    let held = holders(schema, |row| row.link == Some(forward));
    Some(match held.as_str() {
        "" => format!("linkID {link}, and no attribute has {forward}"),
        _ => format!("linkID {link}, and {forward} is held by {held}, which is defunct"),
    })
}

/// A linked attribute of a syntax that holds no names.
fn nameless(link: u32, syntax: u8) -> String {
    let needed = match link % 2 {
        0 => "an even one needs 2.5.5.1, 2.5.5.7 or 2.5.5.14",
        _ => "an odd one needs 2.5.5.1",
    };
    format!("linkID {link} with attributeSyntax 2.5.5.{syntax}, and {needed}")
}

fn class(number: u64, schema: &Schema, at: usize, row: &Class) -> Option<String> {
    let auxiliaries = [List::FixedAuxiliary, List::OpenAuxiliary];
    let superiors = [List::FixedSuperior, List::OpenSuperior];
    match number {
        17 => not_live(schema, at, row, Table::Attributes),
        18 => not_live(schema, at, row, Table::Classes),
        19 => misfits(schema, row, auxiliaries, &[0, 3]),
        20 => misfits(schema, row, superiors, &[0, 1]),
        21 => Some(root(row)),
        38..=40 => category(schema, row),
        23 => naming(schema, row),
        _ => None,
    }
}

/// A class's category as a sentence says it.
fn kind(row: &Class) -> &'static str {
    match row.category_word() {
        "88 class" => "an 88 class",
        word => word,
    }
}

/// Class 0 of another category than abstract.
fn root(row: &Class) -> String {
    let own = kind(row);
    format!("it is {own}, and class 0 must be abstract")
}

/// A category that does not fit under the superclass's.
fn category(schema: &Schema, row: &Class) -> Option<String> {
    let own = kind(row);
    let above = kind(schema.classes.get(usize::from(row.superclass))?);
    let told = schema.told(RowId::class(row.superclass));
    Some(format!(
        "it is {own}, and its superclass, {told}, is {above}"
    ))
}

/// A naming attribute of another syntax, or with many values.
fn naming(schema: &Schema, row: &Class) -> Option<String> {
    let naming = RowId::attribute(row.naming?);
    let attribute = schema.attributes.get(naming.number)?;
    let syntax = attribute.syntax;
    let values = if attribute.single {
        "single-valued"
    } else {
        "multi-valued"
    };
    let told = schema.told(naming);
    Some(format!(
        "it is named by {told}, of syntax 2.5.5.{syntax}, {values}"
    ))
}

/// The rows that a class names and that are not there, not in use or not before
/// it.
fn not_live(schema: &Schema, at: usize, class: &Class, table: Table) -> Option<String> {
    let state = |row: RowId, way: &str| match schema.common(row) {
        None => Some("which has no row"),
        Some(common) if common.defunct && !class.common.defunct => Some("which is defunct"),
        _ if way == "as superclass" && row.number >= at.max(1) => {
            Some("which does not come before it")
        }
        _ => None,
    };
    let words = named(class)
        .into_iter()
        .filter(|(row, _)| row.table == table);
    let words = words.filter_map(|(row, way)| {
        let state = state(row, &way)?;
        let told = schema.told(row).replace(", which has no row", "");
        Some(format!("it names {told}, {state}, {way}"))
    });
    let words: Vec<_> = words.collect();
    let itself = || (table == Table::Classes).then(|| "it lists itself".to_owned());
    if words.is_empty() {
        itself()
    } else {
        Some(joined(&words))
    }
}

/// The entries of two lists whose category does not fit there.
fn misfits(schema: &Schema, class: &Class, lists: [List; 2], fit: &[u8]) -> Option<String> {
    let words = lists.into_iter().flat_map(|list| {
        class.list(list).iter().filter_map(move |number| {
            let entry = schema.classes.get(usize::from(*number))?;
            let told = schema.told(RowId::class(*number));
            let words = format!("its {} hold {told}, which is {}", list.title(), kind(entry));
            (!fit.contains(&entry.category)).then_some(words)
        })
    });
    let words: Vec<_> = words.collect();
    (!words.is_empty()).then(|| joined(&words))
}
