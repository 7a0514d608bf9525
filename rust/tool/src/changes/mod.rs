//! Changes in words: read, turned into the keeper's bytes, and made to rows so
//! that a refusal can be told in words.

mod after;
mod block;
mod bytes;
mod fresh;
mod parse;

pub use after::after;
pub use block::Block;
pub use bytes::bytes;
pub use fresh::with_guids;
pub use parse::{parse_file, parse_words};

use crate::rows::{List, RowId, Schema, Table};

/// No row can have this number: it stands for a name that is nowhere, and the
/// keeper answers accordingly.
pub const NOWHERE: u16 = u16::MAX;

/// A change as it was asked for, rows by name.
#[derive(Clone, Debug, PartialEq, Eq)]
pub enum Change {
    /// A row to be added, in the lines of the text form.
    Add {
        /// To which table.
        table: Table,
        /// Head and lines of the row.
        block: Block,
    },
    /// An attribute's range to be set; an end that is not given becomes absent.
    Range {
        /// The attribute.
        name: String,
        /// rangeLower.
        lower: Option<i32>,
        /// rangeUpper.
        upper: Option<i32>,
    },
    /// A display name to be set.
    Rename {
        /// Of a row of which table.
        table: Table,
        /// The name that it has.
        name: String,
        /// The name that it is to have.
        to: String,
    },
    /// A row to be taken out of use, or back into it.
    State {
        /// Back into use.
        active: bool,
        /// A row of which table.
        table: Table,
        /// The row.
        name: String,
    },
    /// An entry to be added to an open list of a class, or removed from it.
    Entry {
        /// Added.
        add: bool,
        /// The list.
        list: List,
        /// The class.
        class: String,
        /// The entry.
        entry: String,
    },
}

impl Change {
    /// The change in one line of words.
    pub fn words(&self) -> String {
        match self {
            Change::Add { block, .. } => format!("add {}", block.head()),
            Change::Range { name, lower, upper } => {
                format!(
                    "range attribute {name} {} {}",
                    end_word(*lower),
                    end_word(*upper)
                )
            }
            Change::Rename { table, name, to } => format!("rename {} {name} {to}", table.word()),
            Change::State {
                active,
                table,
                name,
            } => {
                let verb = if *active { "reactivate" } else { "deactivate" };
                format!("{verb} {} {name}", table.word())
            }
            Change::Entry {
                add,
                list,
                class,
                entry,
            } => {
                let verb = if *add { "add" } else { "remove" };
                format!("{verb} {} {class} {entry}", list_word(*list))
            }
        }
    }

    /// The row that the change is about, where there is one.
    pub fn target(&self, schema: &Schema) -> Option<RowId> {
        match self {
            Change::Add { table, .. } => {
                let number = schema.rows_of(*table).count();
                Some(RowId {
                    table: *table,
                    number,
                })
            }
            Change::Range { name, .. } => schema.find(Table::Attributes, name),
            Change::Rename { table, name, .. } | Change::State { table, name, .. } => {
                schema.find(*table, name)
            }
            Change::Entry { class, .. } => schema.find(Table::Classes, class),
        }
    }
}

/// The words of the three open lists.
const LISTS: [(&str, List); 3] = [
    ("optional", List::OpenOptional),
    ("auxiliary", List::OpenAuxiliary),
    ("superior", List::OpenSuperior),
];

/// The word of an open list.
pub fn list_word(list: List) -> &'static str {
    let found = LISTS.iter().find(|(_, open)| *open == list);
    found.map_or(list.word(), |(word, _)| word)
}

/// An end of a range in words.
fn end_word(end: Option<i32>) -> String {
    end.map_or_else(|| "none".to_owned(), |end| end.to_string())
}
