//! The rows as a change would leave them, so that a refusal can name rivals.

use super::{Change, NOWHERE};
use crate::rows::{Class, List, RowId, Schema, Table};
use crate::sheet::decode;

/// The rows with the change made, and the row that it is about. Nothing is
/// judged. The change is given in bytes too, where an added row is read.
pub fn after(change: &Change, bytes: &[u8], schema: &Schema) -> Option<(Schema, RowId)> {
    let target = change.target(schema)?;
    let mut after = schema.clone();
    match change {
        Change::Add { table, .. } => add(*table, bytes, &mut after),
        Change::Range { lower, upper, .. } => {
            let row = after.attributes.get_mut(target.number)?;
            (row.lower, row.upper) = (*lower, *upper);
        }
        Change::Rename { to, .. } => after.common_mut(target)?.name = to.as_bytes().to_vec(),
        Change::State { active, .. } => after.common_mut(target)?.defunct = !active,
        Change::Entry {
            add, list, entry, ..
        } => {
            let found = schema.find(list.table(), entry);
            let number = found.and_then(|row| u16::try_from(row.number).ok());
            let class = after.classes.get_mut(target.number)?;
            set(class, *list, number.unwrap_or(NOWHERE), *add);
        }
    }
    Some((after, target))
}

/// Adds the row that a change carries: its fields under the tag of a row are a
/// row of a sheet.
fn add(table: Table, bytes: &[u8], schema: &mut Schema) {
    let mut row = bytes.to_vec();
    if let Some(tag) = row.first_mut() {
        *tag = if table == Table::Attributes {
            0x20
        } else {
            0x30
        };
    }
    let rows = decode(&row);
    schema.attributes.extend(rows.attributes);
    schema.classes.extend(rows.classes);
}

fn set(class: &mut Class, list: List, entry: u16, add: bool) {
    match add {
        true => class.list_mut(list).insert(entry),
        false => class.list_mut(list).remove(&entry),
    };
}
