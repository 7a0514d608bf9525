//! "Sheet: field 01 holding 01, attribute rows 20, class rows 30"

use super::fields::{Reader, Unreadable};
use super::row;
use crate::schema::{ATTRIBUTE_LIMIT, CLASS_LIMIT, Schema};

const HEADING: u8 = 0x01;
const ATTRIBUTE_ROW: u8 = 0x20;
const CLASS_ROW: u8 = 0x30;

/// Why a sheet is not read to its end: "it reads left to right and gives 4 or
/// 6, whichever comes first".
#[derive(Clone, Copy, Debug, PartialEq, Eq)]
pub enum SheetRefusal {
    /// 4, with the byte offset.
    Unreadable(Unreadable),
    /// 6, "with table and limit".
    NoFreeRow {
        /// 1 attribute, 2 class.
        table: u64,
        /// The number of rows the table holds at most.
        limit: usize,
    },
}

impl From<Unreadable> for SheetRefusal {
    fn from(unreadable: Unreadable) -> Self {
        SheetRefusal::Unreadable(unreadable)
    }
}

/// Reads a whole sheet.
pub fn sheet(bytes: &[u8]) -> Result<Schema, SheetRefusal> {
    let mut reader = Reader::new(bytes);
    let mut heading = false;
    let mut schema = Schema::default();
    while let Some(tag) = reader.tag() {
        free_row(&schema, tag)?;
        let field = reader.field()?;
        match field.tag {
            HEADING if !heading && schema.is_empty() && field.value == [0x01] => heading = true,
            ATTRIBUTE_ROW if schema.classes.is_empty() => {
                schema.attributes.push(row::attribute(field.inside())?);
            }
            CLASS_ROW => schema.classes.push(row::class(field.inside())?),
            _ => return Err(field.refused().into()),
        }
    }
    if !heading {
        let place = reader.place();
        return Err(Unreadable { place }.into());
    }
    Ok(schema)
}

/// "6: no free row; at load, told at the row's tag, before any 4 there, with
/// table and limit"
fn free_row(schema: &Schema, tag: u8) -> Result<(), SheetRefusal> {
    let (table, rows, limit) = match tag {
        ATTRIBUTE_ROW => (1, schema.attributes.len(), ATTRIBUTE_LIMIT),
        CLASS_ROW => (2, schema.classes.len(), CLASS_LIMIT),
        _ => return Ok(()),
    };
    if rows < limit {
        Ok(())
    } else {
        Err(SheetRefusal::NoFreeRow { table, limit })
    }
}
