//! The names by which lines name rows.

use super::lines::{Fault, Line};
use crate::rows::{RowId, Schema, Table};
use std::collections::HashMap;

/// The numbers of rows by their names; of rows with one name, the first.
#[derive(Default)]
pub struct Names {
    attributes: Numbers,
    classes: Numbers,
}

/// The numbers of a table's rows by their names as they stand and case aside.
#[derive(Default)]
struct Numbers {
    exact: HashMap<String, usize>,
    folded: HashMap<String, usize>,
}

impl Names {
    /// The names of a schema's rows.
    pub fn of(schema: &Schema) -> Names {
        let mut names = Names::default();
        for row in schema.rows() {
            names.insert(row, &schema.name(row));
        }
        names
    }

    /// Takes in the name of a row.
    pub fn insert(&mut self, row: RowId, name: &str) {
        let Numbers { exact, folded } = match row.table {
            Table::Attributes => &mut self.attributes,
            Table::Classes => &mut self.classes,
        };
        exact.entry(name.to_owned()).or_insert(row.number);
        let folded = folded.entry(name.to_ascii_lowercase());
        folded.or_insert(row.number);
    }

    /// The number of the row that a line names: as the name stands, else case
    /// aside.
    pub fn number(&self, line: &Line, table: Table, name: &str) -> Result<u16, Fault> {
        let Numbers { exact, folded } = match table {
            Table::Attributes => &self.attributes,
            Table::Classes => &self.classes,
        };
        let fault = || line.fault(&format!("no {} is named {name}", table.word()));
        let folded = || folded.get(&name.to_ascii_lowercase());
        let number = exact.get(name).or_else(folded).ok_or_else(fault)?;
        u16::try_from(*number).map_err(|_| line.fault("too many rows"))
    }
}
