//! A schema that was read and that the keeper has accepted.

use crate::failure::Failure;
use crate::input::{Form, Given};
use crate::ldif::{self, Import};
use crate::refusal;
use crate::rows::{Class, Schema, Table};
use crate::sheet::{decode, encode};
use crate::text::{self, Lines};
use crate::words::printable;
use keeper::Stores;
use std::ffi::OsStr;
use std::io::{Read, Write};

/// The schema, as it was given and as the keeper holds it.
pub struct Opened {
    /// What was read.
    pub given: Given,
    /// The keeper's stores.
    pub stores: Stores,
    /// The rows that the keeper holds.
    pub schema: Schema,
}

impl Opened {
    /// Reads a schema in any form and loads it. What is passed over is told.
    pub fn read(
        path: &OsStr,
        input: &mut dyn Read,
        err: &mut dyn Write,
    ) -> Result<Opened, Failure> {
        Opened::of(Given::read(path, input)?, err)
    }

    /// Loads what was read. What is passed over is told.
    pub fn of(given: Given, err: &mut dyn Write) -> Result<Opened, Failure> {
        let (sheet, lines) = sheet_of(&given, err)?;
        let stores = loaded(&given.name, &sheet, lines.as_ref())?;
        let schema = held(&stores)?;
        Ok(Opened {
            given,
            stores,
            schema,
        })
    }
}

/// The stores of a sheet, or why the keeper refuses it. A schema that came as
/// lines names rows that there is no room for by numbers that no field can hold:
/// that there are too many is told instead.
pub fn loaded(name: &str, sheet: &[u8], lines: Option<&Lines>) -> Result<Stores, Failure> {
    Stores::loaded(sheet).map_err(|answer| {
        let crowded = lines
            .filter(|_| answer.number == 4)
            .and_then(|_| crowded(sheet));
        let answer = crowded.unwrap_or(answer);
        Failure::Refused(refusal::load(name, sheet, answer, lines))
    })
}

/// The keeper's answer that a schema has too many rows, asked for without what
/// classes name.
fn crowded(sheet: &[u8]) -> Option<keeper::Answer> {
    let mut schema = decode(sheet);
    for class in &mut schema.classes {
        *class = Class {
            common: class.common.clone(),
            category: class.category,
            ..Class::default()
        };
    }
    let answer = Stores::loaded(&encode(&schema).ok()?).err()?;
    Some(answer).filter(|answer| answer.number == 6)
}

/// The rows that the stores hold, by the sheet that the keeper writes.
pub fn held(stores: &Stores) -> Result<Schema, Failure> {
    stores
        .sheet()
        .map(|sheet| decode(&sheet))
        .map_err(unwritten)
}

/// The keeper did not write stores that it filled itself.
pub fn unwritten(answer: keeper::Answer) -> Failure {
    Failure::unusable(format!(
        "the stores cannot be written: {}",
        refusal::headline(answer.number, "")
    ))
}

/// What was read, as a sheet; where it came as lines, with the line of each row.
/// What is passed over is told on the way.
pub fn sheet_of(given: &Given, err: &mut dyn Write) -> Result<(Vec<u8>, Option<Lines>), Failure> {
    let unusable = |fault: String| Failure::unusable(format!("{}: {fault}", given.name));
    let (schema, lines) = match given.form {
        Form::Sheet => return Ok((given.bytes.clone(), None)),
        Form::Text => text::read(&given.text()).map_err(|fault| unusable(fault.to_string()))?,
        Form::Ldif => {
            let import = taken_in(given, &[], err)?;
            (import.schema, import.lines)
        }
    };
    let sheet = encode(&schema).map_err(unusable)?;
    Ok((sheet, Some(lines)))
}

/// LDIF as rows, all of them or those that some names need. What is passed over
/// is told on the way.
pub fn taken_in(given: &Given, only: &[String], err: &mut dyn Write) -> Result<Import, Failure> {
    let mut notes = Vec::new();
    let import = ldif::import(&given.text(), only, &mut notes);
    for note in &notes {
        // Notes are for people; nothing hangs on them.
        let _ = writeln!(err, "{}: {}", given.name, printable(note));
    }
    import.map_err(|fault| Failure::unusable(format!("{}: {fault}", given.name)))
}

/// How many rows of a table there are, and how many of them are defunct or came
/// with the server.
pub fn counted(schema: &Schema, table: Table) -> String {
    let rows: Vec<_> = schema
        .rows_of(table)
        .filter_map(|row| schema.common(row))
        .collect();
    let defunct = rows.iter().filter(|row| row.defunct).count();
    let base = rows
        .iter()
        .filter(|row| row.flags & crate::rows::BASE != 0)
        .count();
    let word = match (table, rows.len()) {
        (Table::Attributes, 1) => "attribute",
        (Table::Attributes, _) => "attributes",
        (Table::Classes, 1) => "class",
        (Table::Classes, _) => "classes",
    };
    format!("{} {word} ({base} base, {defunct} defunct)", rows.len())
}
