//! Sheets and changes, read from left to right.

mod change;
mod fields;
mod row;
mod sheet;
mod values;

pub use change::change;
pub use fields::Unreadable;
pub use sheet::{SheetRefusal, sheet};
