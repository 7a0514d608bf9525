//! "A change is one field"

use super::fields::{Field, Fields, Reader, Slot, Unreadable, optional, required};
use super::{row, values};
use crate::changes::{Alteration, Change};
use crate::schema::{OpenList, Row};

/// "42 to 4A begin with field 20, the target, any u16"
const TARGET: [Slot; 1] = [required(0x20, values::is_u16)];

/// "then 0A and 0B (an end not given becomes absent)"
const RANGE: [Slot; 2] = [
    optional(0x0A, values::is_four),
    optional(0x0B, values::is_four),
];

/// "or 01"
const NAME: [Slot; 1] = [required(0x01, values::is_name)];

/// "or 21 (one byte: 15, 17, 19) and 22, the entry, any u16"
const ENTRY: [Slot; 2] = [
    required(0x21, values::is_list),
    required(0x22, values::is_u16),
];

/// Reads a whole change.
pub fn change(bytes: &[u8]) -> Result<Change, Unreadable> {
    let mut reader = Reader::new(bytes);
    let field = reader.field()?;
    let change = inside(&field)?;
    match reader.tag() {
        None => Ok(change),
        Some(_) => Err(Unreadable {
            place: reader.place(),
        }),
    }
}

/// "40, 41 add attribute, class (value as a row, no 05); 42 range; 43, 44 name
/// of attribute, class; 45, 46 deactivate; 47, 48 reactivate; 49, 4A list
/// addition, removal."
fn inside(field: &Field) -> Result<Change, Unreadable> {
    let reader = field.inside();
    match field.tag {
        0x40 => row::added_attribute(reader).map(Change::AddAttribute),
        0x41 => row::added_class(reader).map(Change::AddClass),
        0x42 => range(reader),
        0x43 => name(reader, Row::Attribute),
        0x44 => name(reader, Row::Class),
        0x45 => bare(reader, Row::Attribute, Alteration::Deactivate),
        0x46 => bare(reader, Row::Class, Alteration::Deactivate),
        0x47 => bare(reader, Row::Attribute, Alteration::Reactivate),
        0x48 => bare(reader, Row::Class, Alteration::Reactivate),
        0x49 => entry(reader, |list, entry| Alteration::AddEntry { list, entry }),
        0x4A => entry(reader, |list, entry| Alteration::RemoveEntry {
            list,
            entry,
        }),
        _ => Err(field.refused()),
    }
}

fn altered(fields: &Fields, table: fn(u16) -> Row, alteration: Alteration) -> Change {
    Change::Alter {
        target: table(fields.number(0x20) as u16),
        alteration,
    }
}

fn range(reader: Reader) -> Result<Change, Unreadable> {
    let fields = Fields::read(reader, TARGET.iter().chain(&RANGE))?;
    let alteration = Alteration::Range {
        lower: row::range_end(&fields, 0x0A),
        upper: row::range_end(&fields, 0x0B),
    };
    Ok(altered(&fields, Row::Attribute, alteration))
}

fn name(reader: Reader, table: fn(u16) -> Row) -> Result<Change, Unreadable> {
    let fields = Fields::read(reader, TARGET.iter().chain(&NAME))?;
    let alteration = Alteration::Name(fields.bytes(0x01).to_vec());
    Ok(altered(&fields, table, alteration))
}

/// "A reactivation carries nothing but itself"; nor does a deactivation.
fn bare(
    reader: Reader,
    table: fn(u16) -> Row,
    alteration: Alteration,
) -> Result<Change, Unreadable> {
    let fields = Fields::read(reader, &TARGET)?;
    Ok(altered(&fields, table, alteration))
}

fn entry(
    reader: Reader,
    alteration: fn(OpenList, u16) -> Alteration,
) -> Result<Change, Unreadable> {
    let fields = Fields::read(reader, TARGET.iter().chain(&ENTRY))?;
    let list = values::list(fields.bytes(0x21)).unwrap_or(OpenList::Optional);
    let alteration = alteration(list, fields.number(0x22) as u16);
    Ok(altered(&fields, Row::Class, alteration))
}
