//! Why a change was refused: numbers 4 to 30, with the rows that it speaks of.

use super::named::named;
use super::rules::broken;
use crate::changes::{Change, after, list_word};
use crate::guess::nearest;
use crate::kept::Kept;
use crate::rows::{Class, List, RowId, Schema, Table};
use crate::sheet::located_from;
use crate::words::joined;
use keeper::{Answer, Stores};

/// What a refusal of a change speaks of, in words, from the rows before it.
pub fn asked(
    answer: Answer,
    change: &Change,
    bytes: &[u8],
    schema: &Schema,
    stores: &Stores,
) -> String {
    let target = change.target(schema);
    let told = target.map(|row| schema.told(row)).unwrap_or_default();
    match answer.number {
        4 => unreadable(change, bytes, answer, schema),
        5 => missing(change, schema),
        6 => "the table is full".to_owned(),
        7 => match change {
            Change::State { active: true, .. } => format!("{told} is active already"),
            _ => format!("{told} is defunct: reactivate it first"),
        },
        8 => format!("{told} came with the server"),
        9 => "the row to be added has `base`, or 16 among its flags".to_owned(),
        10 => conflict(change, schema),
        11 => target.map(|row| users(schema, row)).unwrap_or_default(),
        30 => target
            .map(|row| demands(change, schema, stores, row))
            .unwrap_or_default(),
        number => match after(change, bytes, schema) {
            Some((after, row)) => {
                entry_missing(change, schema).unwrap_or_else(|| broken(number, &after, row))
            }
            None => String::new(),
        },
    }
}

/// A change that cannot be read: a name that is too long, mostly.
fn unreadable(change: &Change, bytes: &[u8], answer: Answer, schema: &Schema) -> String {
    match change {
        Change::Rename { to, .. } => format!("a name of {} bytes, and 64 is the most", to.len()),
        _ => {
            let offset = usize::try_from(answer.place).unwrap_or(usize::MAX);
            let mut row = bytes.to_vec();
            if let Some(tag) = row.first_mut() {
                *tag = if *tag == 0x41 { 0x30 } else { 0x20 };
            }
            // An added row is told by the number that it would get.
            let first = change.target(schema).map_or(0, |row| row.number);
            located_from(&row, offset, first).join("\n  ")
        }
    }
}

/// The target is nowhere.
fn missing(change: &Change, schema: &Schema) -> String {
    let (table, name) = match change {
        Change::Add { .. } => return String::new(),
        Change::Range { name, .. } => (Table::Attributes, name),
        Change::Rename { table, name, .. } | Change::State { table, name, .. } => (*table, name),
        Change::Entry { class, .. } => (Table::Classes, class),
    };
    nearest(schema, table, name)
}

/// The entry of a list that is nowhere.
fn entry_missing(change: &Change, schema: &Schema) -> Option<String> {
    let Change::Entry { list, entry, .. } = change else {
        return None;
    };
    let is_missing = schema.find(list.table(), entry).is_none();
    is_missing.then(|| nearest(schema, list.table(), entry))
}

/// The entry is in the list already, or is not in it.
fn conflict(change: &Change, schema: &Schema) -> String {
    let Change::Entry {
        add,
        list,
        class,
        entry,
    } = change
    else {
        return String::new();
    };
    let word = list_word(*list);
    let fixed = match list {
        List::OpenOptional => List::FixedOptional,
        List::OpenAuxiliary => List::FixedAuxiliary,
        _ => List::FixedSuperior,
    };
    let row = schema
        .find(Table::Classes, class)
        .and_then(|row| schema.classes.get(row.number));
    let number = schema
        .find(list.table(), entry)
        .and_then(|row| u16::try_from(row.number).ok());
    let is_fixed = row
        .zip(number)
        .is_some_and(|(row, number)| row.list(fixed).contains(&number));
    match (*add, is_fixed) {
        (true, true) => format!("`{entry}` is in the fixed {word} list of `{class}` already"),
        (true, false) => format!("`{entry}` is in the open {word} list of `{class}` already"),
        (false, true) => {
            format!("`{entry}` is in the fixed {word} list of `{class}`, which no change alters")
        }
        (false, false) => entry_missing(change, schema)
            .unwrap_or_else(|| format!("`{entry}` is not in the open {word} list of `{class}`")),
    }
}

/// Whatever active names a row.
fn users(schema: &Schema, row: RowId) -> String {
    let classes = schema.classes.iter().enumerate();
    let active = classes.filter(|(at, class)| !class.common.defunct && RowId::class(*at) != row);
    let ways = |(at, class): (usize, &Class)| {
        let ways: Vec<_> = named(class)
            .into_iter()
            .filter(|(named, _)| *named == row)
            .map(|(_, way)| way)
            .collect();
        let told = schema.told(RowId::class(at));
        (!ways.is_empty()).then(|| format!("{told} names it {}", joined(&ways)))
    };
    let mut words: Vec<_> = active.filter_map(ways).collect();
    let link = schema
        .attributes
        .get(row.number)
        .filter(|_| row.table == Table::Attributes);
    if let Some(link) = link.and_then(|attribute| attribute.link) {
        let back = |attribute: &crate::rows::Attribute| {
            !attribute.common.defunct && link % 2 == 0 && attribute.link == link.checked_add(1)
        };
        let backs = schema
            .attributes
            .iter()
            .enumerate()
            .filter(|(_, attribute)| back(attribute));
        words.extend(
            backs.map(|(at, _)| format!("{} is its back link", schema.told(RowId::attribute(at)))),
        );
    }
    format!("{} is in use: {}", schema.told(row), joined(&words))
}

/// What an auxiliary demands, by the sets that the keeper keeps.
fn demands(change: &Change, schema: &Schema, stores: &Stores, target: RowId) -> String {
    let Change::Entry {
        add,
        list,
        entry,
        class,
    } = change
    else {
        return String::new();
    };
    let Some(entry_row) = schema.find(list.table(), entry) else {
        return String::new();
    };
    let own = Kept::Demanded.of(stores, target.number);
    let brought = Kept::Demanded.of(stores, entry_row.number);
    let differs = |number: &u16| !add || !own.contains(number);
    let names = brought
        .into_iter()
        .filter(differs)
        .map(|number| format!("`{}`", schema.name(RowId::attribute(number))));
    let names = joined(&names.collect::<Vec<_>>());
    match add {
        true => format!("`{entry}` demands {names}, which `{class}` does not demand"),
        false => format!(
            "`{entry}` demands {names}, and `{class}` would no longer demand all that it does"
        ),
    }
}
