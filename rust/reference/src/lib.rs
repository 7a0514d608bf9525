//! The schema keeper of document 01, written from its papers alone, to compare
//! other keepers with. The stores are decoded into ordinary values, judged by
//! code that reads like the paper, and encoded back.

mod answer;
mod big_endian;
mod calls;
pub mod changes;
pub mod closure;
pub mod layout;
mod listing;
mod order;
mod plain;
mod quick;
pub mod reading;
pub mod rules;
pub mod schema;
mod stores;
pub mod syntax;
pub mod writing;

pub use answer::{Answer, NUMBERS};
pub use listing::{LISTED_LIMIT, listing};
pub use stores::{ATTRIBUTES, CLASSES, CLOSURE, LENGTHS, PAST, Stores};
