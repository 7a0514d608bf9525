//! Rows of two schemas that are the same row: those with one schemaIDGUID, which
//! no change alters and no two rows share.

use crate::rows::{RowId, Schema, Table};

/// What a row keeps through all changes.
#[derive(Clone, Copy, Debug, PartialEq, Eq, PartialOrd, Ord)]
pub struct Key {
    /// The row's table.
    pub table: Table,
    guid: [u8; 16],
}

impl Key {
    /// The key of a row.
    pub fn of(schema: &Schema, row: RowId) -> Option<Key> {
        let guid = schema.common(row)?.guid;
        Some(Key {
            table: row.table,
            guid,
        })
    }

    /// The row with this key.
    pub fn row(self, schema: &Schema) -> Option<RowId> {
        let mut rows = schema.rows_of(self.table);
        rows.find(|row| {
            schema
                .common(*row)
                .is_some_and(|common| common.guid == self.guid)
        })
    }

    /// The name of the row with this key.
    pub fn name(self, schema: &Schema) -> Option<String> {
        self.row(schema).map(|row| schema.name(row))
    }
}

/// The keys of all rows of a table, in their order.
pub fn keys(schema: &Schema, table: Table) -> Vec<Key> {
    schema
        .rows_of(table)
        .filter_map(|row| Key::of(schema, row))
        .collect()
}

/// The keys of the rows with these numbers.
pub fn keys_of<'a>(
    schema: &Schema,
    table: Table,
    numbers: impl Iterator<Item = &'a u16>,
) -> Vec<Key> {
    let row = |number: &u16| RowId {
        table,
        number: usize::from(*number),
    };
    numbers
        .filter_map(|number| Key::of(schema, row(number)))
        .collect()
}
