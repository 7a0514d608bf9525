//! How good the gate's scripts are: the list has edits that make the reference
//! wrong, each against a sentence of document 01 or 02; each is made in a copy,
//! and what the gate plays must see it.

mod edit;
mod scratch;
mod script;

pub use edit::{Edit, edits};
pub use scratch::{Built, Scratch};
pub use script::{Script, scripts};
