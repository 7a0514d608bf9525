//! A name that is nowhere, and the one that may be meant.

use crate::rows::{RowId, Schema, Table};
use crate::words::shown;

/// That no row of the table has this name, and what may be meant instead.
pub fn nearest(schema: &Schema, table: Table, name: &str) -> String {
    let said = format!("no {} is named `{}`", table.word(), brief(name));
    let other = match table {
        Table::Attributes => Table::Classes,
        Table::Classes => Table::Attributes,
    };
    if schema.find(other, name).is_some() {
        return format!("{said}, but {} is", article(other));
    }
    said + &meant(schema, schema.rows_of(table), name)
}

/// That no row of either table has this name, and what may be meant instead.
pub fn nearest_row(schema: &Schema, name: &str) -> String {
    format!("no row is named `{}`", brief(name)) + &meant(schema, schema.rows(), name)
}

/// A name as it can be shown, cut where it is very long.
fn brief(name: &str) -> String {
    let brief: String = name.chars().take(80).collect();
    shown(brief.as_bytes())
}

/// The row whose name is near this one.
fn meant(schema: &Schema, rows: impl Iterator<Item = RowId>, name: &str) -> String {
    let near = rows
        .map(|row| schema.name(row))
        .map(|known| (distance(&known, name), known));
    match near.filter(|(distance, _)| *distance <= 2).min() {
        Some((_, known)) => format!("; is `{known}` meant?"),
        None => String::new(),
    }
}

fn article(table: Table) -> &'static str {
    match table {
        Table::Attributes => "an attribute",
        Table::Classes => "a class",
    }
}

/// How many letters must be put in, taken out or replaced to come from one word
/// to the other, case aside; words far apart in length are far apart.
fn distance(one: &str, other: &str) -> usize {
    if one.len().abs_diff(other.len()) > 2 {
        return usize::MAX;
    }
    let other: Vec<u8> = other.to_ascii_lowercase().into_bytes();
    let mut row: Vec<usize> = (0..=other.len()).collect();
    for (at, letter) in one.to_ascii_lowercase().bytes().enumerate() {
        let mut diagonal = row[0];
        row[0] = at + 1;
        for (place, known) in other.iter().enumerate() {
            let replaced = diagonal + usize::from(letter != *known);
            diagonal = row[place + 1];
            row[place + 1] = replaced.min(diagonal + 1).min(row[place] + 1);
        }
    }
    row[other.len()]
}

#[cfg(test)]
mod tests {
    use super::distance;

    #[test]
    fn distances_are_counted_in_letters() {
        assert_eq!(distance("areaHa", "areaha"), 0);
        assert_eq!(distance("areaHa", "arehHa"), 1);
        assert_eq!(distance("stand", "tand"), 1);
        assert!(distance("stand", "species") > 2);
    }
}
