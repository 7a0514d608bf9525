//! A change as the bytes that the keeper reads (docs/FORMAT.md).

use super::{Block, Change, NOWHERE};
use crate::rows::{RowId, Schema, Table};
use crate::sheet::{attribute_fields, class_fields, field};
use crate::text::{Names, Source, attribute, class};

/// The bytes of a change to a schema. A target or entry that is nowhere gets a
/// number without a row, so that the keeper refuses it; a row that cannot be
/// written at all is told here.
pub fn bytes(change: &Change, schema: &Schema) -> Result<Vec<u8>, String> {
    let number = |table, name: &str| number(schema, table, name).to_be_bytes();
    let target = |table, name: &str| field(0x20, &number(table, name));
    let (tag, value) = match change {
        Change::Add { table, block } => return added(*table, block, schema),
        Change::Range { name, lower, upper } => {
            let ends = [end(0x0A, *lower)?, end(0x0B, *upper)?].concat();
            (0x42, [target(Table::Attributes, name)?, ends].concat())
        }
        Change::Rename { table, name, to } => {
            let value = [target(*table, name)?, field(0x01, to.as_bytes())?].concat();
            (0x43 + class_step(*table), value)
        }
        Change::State {
            active,
            table,
            name,
        } => {
            let tag = if *active { 0x47 } else { 0x45 };
            (tag + class_step(*table), target(*table, name)?)
        }
        Change::Entry {
            add,
            list,
            class,
            entry,
        } => {
            let which = field(0x21, &[list.tag()])?;
            let entry = field(0x22, &number(list.table(), entry))?;
            let value = [target(Table::Classes, class)?, which, entry].concat();
            (if *add { 0x49 } else { 0x4A }, value)
        }
    };
    field(tag, &value)
}

/// An end of a range, where it is given.
fn end(tag: u8, end: Option<i32>) -> Result<Vec<u8>, String> {
    end.map_or(Ok(Vec::new()), |end| field(tag, &end.to_be_bytes()))
}

/// The tag of a class's change follows that of an attribute's.
fn class_step(table: Table) -> u8 {
    u8::from(table == Table::Classes)
}

fn number(schema: &Schema, table: Table, name: &str) -> u16 {
    let row = schema.find(table, name);
    row.and_then(|row| u16::try_from(row.number).ok())
        .unwrap_or(NOWHERE)
}

/// The names of all rows and of a class that is to be added, which may name itself:
/// the first class stands under itself.
fn names_with(source: &Source, schema: &Schema) -> Names {
    let mut names = Names::of(schema);
    if let Ok((name, _)) = source.head() {
        names.insert(RowId::class(schema.classes.len()), name);
    }
    names
}

/// An added row; a fault is told by its line in the list of changes.
fn added(table: Table, block: &Block, schema: &Schema) -> Result<Vec<u8>, String> {
    let source = block.source().map_err(|fault| fault.to_string())?;
    let row = match table {
        Table::Attributes => attribute(&source).map(|row| (0x40, attribute_fields(&row))),
        Table::Classes => {
            let names = names_with(&source, schema);
            class(&source, &names).map(|row| (0x41, class_fields(&row)))
        }
    };
    let (tag, value) = row.map_err(|fault| fault.to_string())?;
    field(tag, &value?)
}
