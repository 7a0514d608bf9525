//! The schema keeper at the command line: words into the keeper's bytes, and its
//! answers back into words. What decides is the proved library alone.

pub mod arguments;
pub mod changes;
mod columns;
pub mod commands;
mod diff;
pub mod failure;
mod format_page;
mod guess;
pub mod input;
mod kept;
pub mod ldif;
pub mod numbers;
mod opened;
mod page;
pub mod refusal;
pub mod rows;
mod save;
pub mod sheet;
pub mod text;
mod through;
mod words;

pub use commands::{Io, run};
