//! Scripts made by hand from documents 01 and 02, not at random: for every number
//! that a call can give the smallest schema or change that gives it, with active
//! and defunct rows and rivals, and the nearest one that passes; every limit at
//! its edge and past it. Each step has the answer that the papers give, and a
//! script is made only if the reference gives the same. Two scripts are not
//! stored, and so not played by the gate: a test makes them.

mod base;
mod changes;
mod identity;
mod kept;
mod limits;
mod listing;
mod more;
mod named;
mod places;
mod quick;
mod record;
pub mod rows;
mod stores;
mod values;

use record::Record;

/// The names of the stored scripts, in the order in which the gate plays them.
pub const NAMES: [&str; 7] = [
    "places",
    "rules",
    "changes",
    "attributes",
    "overfull",
    "classes",
    "quick",
];

/// The names of those that are not stored.
pub const UNSTORED: [&str; 2] = ["more", "kept"];

/// The names of the sheets for the program that lists, and what it
/// prints.
pub const SHEETS: [(&str, &str); 5] = [
    (
        "edge",
        "no name oid must may\n0 c0 2.48.0 2 2\n1 c1 2.4294967295.0 2 4\n",
    ),
    ("none", "no name oid must may\n"),
    ("range", "refused 25 1 2\n"),
    ("kind", "refused 38 2 4\n"),
    ("unreadable", "refused 4 0 4\n"),
];

/// A sheet's bytes, if there is one of this name.
pub fn listed(name: &str) -> Option<Vec<u8>> {
    match name {
        "edge" => Some(listing::edge()),
        "none" => Some(rows::sheet(&[])),
        "range" => Some(listing::range()),
        "kind" => Some(listing::kind()),
        "unreadable" => Some(listing::unreadable()),
        _ => None,
    }
}

/// A script's bytes; or none of this name, or what the reference answers
/// otherwise than the papers.
pub fn script(name: &str) -> Result<Vec<u8>, String> {
    let mut record = Record::default();
    match name {
        "places" => {
            places::examples(&mut record);
            named::examples(&mut record);
        }
        "rules" => {
            identity::examples(&mut record);
            values::examples(&mut record);
        }
        "changes" => {
            changes::examples(&mut record);
            stores::examples(&mut record);
        }
        "attributes" => limits::attributes(&mut record),
        "overfull" => limits::overfull(&mut record),
        "classes" => limits::classes(&mut record),
        "quick" => quick::examples(&mut record),
        "more" => more::examples(&mut record),
        "kept" => kept::examples(&mut record),
        _ => return Err(format!("no script {name}")),
    }
    record.finish()
}
