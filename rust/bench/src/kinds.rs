//! One accepted change of each kind.

use generate::changes::bytes;
use keeper::Stores;
use reference::changes::{Alteration, Change};
use reference::schema::{
    ATTRIBUTE_LIMIT, Attribute, CLASS_LIMIT, Class, Common, OpenList, Row, Schema,
};
use reference::writing;

/// A change that is measured: what is loaded, what is changed beforehand, and
/// the change itself.
#[derive(Clone, Debug)]
pub struct Kind {
    /// What it is called in the table.
    pub name: &'static str,
    /// The sheet.
    pub sheet: Vec<u8>,
    /// A change made before, or nothing.
    pub before: Vec<u8>,
    /// The change.
    pub change: Vec<u8>,
}

/// The changes of lists: what each is called, of which list, and whether it adds.
const LISTS: [(&str, OpenList, bool); 6] = [
    ("add optional attribute", OpenList::Optional, true),
    ("add auxiliary", OpenList::Auxiliary, true),
    ("add possible superior", OpenList::PossibleSuperiors, true),
    ("remove optional attribute", OpenList::Optional, false),
    ("remove auxiliary", OpenList::Auxiliary, false),
    (
        "remove possible superior",
        OpenList::PossibleSuperiors,
        false,
    ),
];

/// One of each kind that the schema accepts.
pub fn kinds(schema: &Schema) -> Vec<Kind> {
    let roomy = with_room(schema);
    let new_attribute = Change::AddAttribute(new_attribute());
    let mut found = vec![
        first("add attribute", &roomy, [new_attribute]),
        first("add class", &roomy, [Change::AddClass(new_class())]),
        first("range", schema, attributes(schema).map(range)),
        first("rename, attribute", schema, attributes(schema).map(rename)),
        first("rename, class", schema, classes(schema).map(rename)),
    ];
    let names = ["deactivate, attribute", "reactivate, attribute"];
    found.extend(states(names, schema, attributes(schema)));
    let names = ["deactivate, class", "reactivate, class"];
    found.extend(states(names, schema, classes(schema)));
    for (name, list, added) in LISTS {
        found.push(first(name, schema, entries(schema, list, added)));
    }
    found.into_iter().flatten().collect()
}

/// A row that goes out of use, and that comes back.
fn states(
    [name, back]: [&'static str; 2],
    schema: &Schema,
    rows: impl Iterator<Item = Row>,
) -> [Option<Kind>; 2] {
    let gone = first(name, schema, rows.map(deactivate));
    let back = gone.as_ref().and_then(|kind| reactivated(back, kind));
    [gone, back]
}

/// The first of some changes that is accepted.
fn first(
    name: &'static str,
    schema: &Schema,
    changes: impl IntoIterator<Item = Change>,
) -> Option<Kind> {
    let sheet = writing::sheet(schema);
    let stores = Stores::loaded(&sheet).ok()?;
    let accepted = |change: &Vec<u8>| stores.clone().quick_change(change).number == keeper::DONE;
    let change = changes.into_iter().map(|change| bytes(&change));
    Some(Kind {
        name,
        before: Vec::new(),
        change: change.into_iter().find(accepted)?,
        sheet,
    })
}

/// The same row, reactivated after it was deactivated.
fn reactivated(name: &'static str, gone: &Kind) -> Option<Kind> {
    let mut change = gone.change.clone();
    let tag = change.first_mut()?;
    *tag += 2;
    Some(Kind {
        name,
        sheet: gone.sheet.clone(),
        before: gone.change.clone(),
        change,
    })
}

fn attributes(schema: &Schema) -> impl Iterator<Item = Row> {
    (0..schema.next_attribute()).rev().map(Row::Attribute)
}

fn classes(schema: &Schema) -> impl Iterator<Item = Row> {
    (0..schema.next_class()).rev().map(Row::Class)
}

fn alter(target: Row, alteration: Alteration) -> Change {
    Change::Alter { target, alteration }
}

fn range(target: Row) -> Change {
    alter(
        target,
        Alteration::Range {
            lower: Some(-5),
            upper: Some(70_000),
        },
    )
}

fn rename(target: Row) -> Change {
    alter(target, Alteration::Name(b"measured-by-the-bench".to_vec()))
}

fn deactivate(target: Row) -> Change {
    alter(target, Alteration::Deactivate)
}

/// Entries that may be added to, or are in, an open list. Of the targets that
/// which most classes have above or beside them comes first: the lowest.
fn entries(schema: &Schema, list: OpenList, added: bool) -> Vec<Change> {
    let rows = match list {
        OpenList::Optional => schema.next_attribute(),
        _ => schema.next_class(),
    };
    let mut changes = Vec::new();
    for (class, number) in schema.classes.iter().zip(0u16..) {
        for entry in 0..rows {
            let alteration = match (added, class.open(list).contains(&entry)) {
                (true, false) => Alteration::AddEntry { list, entry },
                (false, true) => Alteration::RemoveEntry { list, entry },
                _ => continue,
            };
            changes.push(alter(Row::Class(number), alteration));
        }
    }
    changes
}

/// The schema with room for a row in each table: the last row of a full one is
/// left out, and whatever names it.
fn with_room(schema: &Schema) -> Schema {
    let mut roomy = schema.clone();
    roomy.attributes.truncate(ATTRIBUTE_LIMIT - 1);
    roomy.classes.truncate(CLASS_LIMIT - 1);
    let (attributes, classes) = (roomy.next_attribute(), roomy.next_class());
    for class in &mut roomy.classes {
        for list in [
            &mut class.mandatory,
            &mut class.fixed_optional,
            &mut class.open_optional,
        ] {
            list.retain(|entry| *entry < attributes);
        }
        for list in [
            &mut class.fixed_auxiliary,
            &mut class.open_auxiliary,
            &mut class.fixed_superiors,
            &mut class.open_superiors,
        ] {
            list.retain(|entry| *entry < classes);
        }
        class.naming = class.naming.filter(|number| *number < attributes);
    }
    roomy
}

fn new_common(last: u32) -> Common {
    Common {
        name: format!("measured-by-the-bench-{last}").into_bytes(),
        arcs: vec![1, 3, 6, 1, 4, 1, 4_000_000_000, last],
        guid: u128::MAX - u128::from(last),
        system_flags: 0,
        defunct: false,
    }
}

fn new_attribute() -> Attribute {
    Attribute {
        common: new_common(1),
        syntax: 12,
        om_syntax: 64,
        ..Attribute::default()
    }
}

/// A class under class 0 that lists a few attributes and nothing else.
fn new_class() -> Class {
    Class {
        common: new_common(2),
        ..Class::default()
    }
}
