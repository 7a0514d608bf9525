//! Sheets as bytes: rows written as fields, fields read back as rows, and where
//! in a sheet an offset lies. docs/FORMAT.md has the tables.

mod decode;
mod encode;
mod fields;
mod locate;

pub use decode::decode;
pub use encode::{attribute_fields, class_fields, encode, field};
pub use fields::{Field, fields};
pub use locate::{located, located_from, row_at};
