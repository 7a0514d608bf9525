//! The text form of a schema, for people, rows by name instead of number: read
//! into rows, written from rows, and rewritten with its comments kept.
//!
//! A row begins with `attribute NAME IDENTIFIER` or `class NAME IDENTIFIER`.
//! The lines after it say the rest, one thing a line, in any order; what is
//! said twice counts as it was said last, but for flags and lists, which join:
//!
//! | Line | What | |
//! |---|---|---|
//! | `guid HEX` | schemaIDGUID, 32 hex digits, hyphens allowed | every row |
//! | `base` | the systemFlag 0x10 | any row |
//! | `flags N` | the systemFlags of N | any row |
//! | `defunct` | defunct | any row |
//! | `syntax N M` | attributeSyntax 2.5.5.N and oMSyntax M | every attribute |
//! | `object HEX` | oMObjectClass; without it, the first of the syntax | attribute |
//! | `single` | single-valued | attribute |
//! | `lower N`, `upper N` | rangeLower, rangeUpper | attribute |
//! | `link N`, `mapi N` | linkID, mAPIID | attribute |
//! | `88`, `structural`, `abstract`, `auxiliary` | category | every class |
//! | `under CLASS` | superclass | every class |
//! | `naming ATTRIBUTE` | rDNAttID | class |
//! | `must`, `system-may`, `may` | mandatory, fixed and open optional attributes | class |
//! | `system-aux`, `aux` | fixed and open auxiliary classes | class |
//! | `system-in`, `in` | fixed and open possible superiors | class |
//!
//! Names after the last seven words are separated by spaces; a list may go on
//! in a further line with the same word. A name that no row has is compared case
//! aside. The hyphens of a `guid` are passed over: the 16 bytes stand in their
//! order, and not as directories show a GUID. A `#` begins a comment. Attributes
//! and classes are numbered as they stand. No rule of the schema is judged
//! here: that is the keeper's work.

mod lines;
mod names;
mod patch;
mod read;
mod write;

pub use lines::{Fault, Line, Source, arcs};
pub use names::Names;
pub use patch::patched;
pub use read::{Lines, attribute, class, read};
pub use write::{block, written};
