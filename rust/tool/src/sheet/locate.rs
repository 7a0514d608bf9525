//! Where in a sheet an offset lies, for the place of number 4.

use super::decode::decode;
use super::fields::{Field, fields};
use crate::format_page;
use crate::rows::RowId;
use crate::words::{joined, shown};

/// Row, field and bytes around an offset, in lines.
pub fn located(sheet: &[u8], offset: usize) -> Vec<String> {
    located_from(sheet, offset, 0)
}

/// The same of a row that is not in the sheet yet: its first row of either table
/// has this number.
pub fn located_from(sheet: &[u8], offset: usize, first: usize) -> Vec<String> {
    let place = place(sheet, offset, first);
    let mut lines = vec![format!("byte {offset} of {}, {place}", sheet.len())];
    lines.extend(dump(sheet, offset));
    lines
}

/// A field of a sheet, and what can be said of its place.
struct Found<'a> {
    field: Field<'a>,
    /// The row that it is.
    row: Option<RowId>,
    /// Why it must not stand where it does.
    disorder: &'static str,
}

/// The field of a sheet that an offset lies in or stands before.
fn field_at(sheet: &[u8], offset: usize) -> Option<Found<'_>> {
    let (mut headings, mut attributes, mut classes) = (0_usize, 0_usize, 0_usize);
    for field in fields(sheet, 0) {
        let (row, disorder) = match field.tag {
            0x20 if classes > 0 => (Some(RowId::attribute(attributes)), "behind a class"),
            0x20 => (Some(RowId::attribute(attributes)), ""),
            0x30 => (Some(RowId::class(classes)), ""),
            0x01 if headings > 0 => (None, "a second time"),
            0x01 if attributes + classes > 0 => (None, "behind a row"),
            _ => (None, ""),
        };
        // The end of a row is the next one's begin, unless the row misses something.
        let ends_here = offset == field.end() && !missing(&field).is_empty();
        if offset < field.end() || ends_here {
            return Some(Found {
                field,
                row,
                disorder,
            });
        }
        headings += usize::from(field.tag == 0x01);
        attributes += usize::from(field.tag == 0x20);
        classes += usize::from(field.tag == 0x30);
    }
    None
}

/// The row that an offset lies in.
pub fn row_at(sheet: &[u8], offset: usize) -> Option<RowId> {
    field_at(sheet, offset)?.row
}

/// The row and the field that an offset lies in, in words.
fn place(sheet: &[u8], offset: usize, first: usize) -> String {
    match (field_at(sheet, offset), sheet.len().saturating_sub(offset)) {
        (Some(found), _) if offset == found.field.at => at_tag(&found, first),
        (Some(found), _) => {
            let within = within(&found.field, offset);
            match found.row {
                Some(row) => format!("in {}: {within}", named(sheet, row, first)),
                None => within,
            }
        }
        (None, 0) => "the end of the sheet: the heading is missing".to_owned(),
        (None, 1) => "where one byte is left over that is no field".to_owned(),
        (None, _) => "where two bytes are left over that are no field".to_owned(),
    }
}

/// A row by its number, and by its name where one stands in its bytes.
fn named(sheet: &[u8], row: RowId, first: usize) -> String {
    let schema = decode(sheet);
    let name = schema.common(row).map(|common| shown(&common.name));
    let name = name.filter(|name| !name.is_empty());
    let name = name.map_or_else(String::new, |name| format!(" `{name}`"));
    format!("{} {}{name}", row.table.word(), row.number + first)
}

/// What stands at the tag of a field of the sheet itself.
fn at_tag(found: &Found, first: usize) -> String {
    let mut what = match (found.field.tag, found.row) {
        (_, Some(row)) => format!("the tag of {} {}", row.table.word(), row.number + first),
        (0x01, None) => "the heading".to_owned(),
        (tag, None) => format!("the tag {tag:02X}, which no field of a sheet has"),
    };
    if !found.disorder.is_empty() {
        what = format!("{what}, {}", found.disorder);
    }
    match found.field.is_whole() {
        true => format!("at {what}"),
        false => format!("at {what}: {}", cut(&found.field)),
    }
}

fn cut(field: &Field) -> String {
    format!(
        "{} bytes are announced, {} are there",
        field.length,
        field.value.len()
    )
}

/// What stands at an offset inside a row.
fn within(row: &Field, offset: usize) -> String {
    let mut before = None;
    for field in fields(row.value, row.inside()) {
        if offset < field.end() {
            return told(row, &field, before);
        }
        before = Some(field.tag);
    }
    match row.end() - offset {
        0 => format!("its end, and it has no {}", joined(&missing(row))),
        left => format!("{left} bytes left over at its end, which are no field"),
    }
}

/// A field of a row, with what docs/FORMAT.md says of it, and whether it may
/// stand behind the field before.
fn told(row: &Field, field: &Field, before: Option<u8>) -> String {
    let state = match (field.is_whole(), field.length) {
        (true, 1) => "1 byte".to_owned(),
        (true, length) => format!("{length} bytes"),
        (false, _) => cut(field),
    };
    let (name, allowed) = match format_page::row_field(row.tag, field.tag) {
        Some(known) => {
            let words = format!(
                "; its length may be: {}; its value: {}",
                known.length, known.value
            );
            (known.name, words)
        }
        None => (
            "a field that this row does not have".to_owned(),
            String::new(),
        ),
    };
    let disorder = match before.filter(|before| *before >= field.tag) {
        Some(before) => format!("; it stands behind field {before:02X}, and tags must rise"),
        None => String::new(),
    };
    format!(
        "field {:02X}, {name} ({state}){disorder}{allowed}",
        field.tag
    )
}

/// The fields that a row must have and has not.
fn missing(row: &Field) -> Vec<String> {
    if !matches!(row.tag, 0x20 | 0x30) {
        return Vec::new();
    }
    let has = |tag: u8| fields(row.value, 0).any(|field| field.tag == tag);
    let needed = format_page::needed(row.tag).into_iter();
    needed
        .filter(|field| !has(field.tag))
        .map(|field| field.name)
        .collect()
}

/// The bytes around an offset, sixteen to a line, the one at the offset marked.
fn dump(sheet: &[u8], offset: usize) -> Vec<String> {
    let first = offset.saturating_sub(16) / 16 * 16;
    let starts = (first..first + 48)
        .step_by(16)
        .filter(|start| *start <= offset.max(sheet.len()));
    let line = |start: usize| {
        let byte = |at: usize| match (at == offset, sheet.get(at)) {
            (true, Some(byte)) => format!("[{byte:02X}]"),
            (true, None) => "[end]".to_owned(),
            (false, Some(byte)) => format!(" {byte:02X} "),
            (false, None) => String::new(),
        };
        let bytes: String = (start..start + 16).map(byte).collect();
        format!("{start:>8} |{}", bytes.trim_end())
    };
    starts
        .map(line)
        .filter(|line| !line.ends_with('|'))
        .collect()
}
