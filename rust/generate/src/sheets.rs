//! Sheets: sound ones, and ones that a load refuses.

use crate::damage::damaged;
use crate::random::Random;
use crate::schemas::{self, Size};
use crate::{rows, spoil};
use reference::schema::{ARC_LIMIT, ATTRIBUTE_LIMIT, CLASS_LIMIT, NAME_LIMIT, Row, Schema};
use reference::writing;

/// No attribute row takes more bytes of a sheet.
const LONGEST_ATTRIBUTE: usize = 224;

/// "A whole sheet, 67 bytes", as the paper prints it.
pub const PAPER: [u8; 67] = [
    0x01, 0x00, 0x01, 0x01, 0x30, 0x00, 0x3C, //
    0x01, 0x00, 0x03, 0x74, 0x6F, 0x70, //
    0x02, 0x00, 0x10, 0, 0, 0, 2, 0, 0, 0, 5, 0, 0, 0, 6, 0, 0, 0, 0, //
    0x03, 0x00, 0x10, 0x11, 0x11, 0x11, 0x11, 0x11, 0x11, 0x11, 0x11, //
    0x11, 0x11, 0x11, 0x11, 0x11, 0x11, 0x11, 0x11, //
    0x04, 0x00, 0x04, 0x00, 0x00, 0x00, 0x10, //
    0x10, 0x00, 0x01, 0x02, 0x11, 0x00, 0x02, 0x00, 0x00,
];

/// A sheet that a load accepts.
pub fn sound(random: &mut Random) -> Vec<u8> {
    writing::sheet(&schemas::any(random))
}

/// A sheet of just this length that a load accepts, if so many bytes are too
/// few for 256 attributes and enough for some dozens of classes.
pub fn sound_of_length(random: &mut Random, length: usize) -> Vec<u8> {
    let size = Size {
        attributes: 10,
        classes: random.within(20..60),
        entries: 4,
    };
    let mut schema = schemas::schema(random, size);
    let mut rest = length.saturating_sub(writing::sheet(&schema).len());
    while rest >= LONGEST_ATTRIBUTE && schema.attributes.len() < ATTRIBUTE_LIMIT {
        let attribute = schemas::standing_attribute(random, &schema);
        rest -= writing::field(0x20, &writing::attribute_value(&attribute)).len();
        schema.attributes.push(attribute);
    }
    for row in schema.rows().collect::<Vec<Row>>() {
        rest -= rows::lengthen_name(random, &mut schema, row, rest);
    }
    writing::sheet(&schema)
}

/// A sheet that a load accepts with as many classes as there may be, their
/// names and identifiers as long as they may be.
pub fn longest_names(random: &mut Random) -> Vec<u8> {
    let size = Size {
        attributes: random.below(20),
        classes: CLASS_LIMIT,
        entries: 2,
    };
    let mut schema = schemas::schema(random, size);
    for number in 0..schema.next_class() {
        rows::lengthen_name(random, &mut schema, Row::Class(number), NAME_LIMIT);
        if let Some(common) = schema.common_mut(Row::Class(number)) {
            common.arcs = vec![u32::MAX - u32::from(number); ARC_LIMIT];
            common.arcs[0] = 2;
        }
    }
    writing::sheet(&schema)
}

/// A sheet of any kind.
pub fn any(random: &mut Random) -> Vec<u8> {
    match random.below(20) {
        0 => noise(random),
        1 if random.once_in(3) => overfull(random),
        1..=5 => spoiled(random),
        6..=11 => {
            let sheet = sound(random);
            damaged(random, &sheet)
        }
        12 => {
            let sheet = overfull_or_spoiled(random);
            damaged(random, &sheet)
        }
        13 | 14 => other_object_classes(random),
        _ => sound(random),
    }
}

fn overfull_or_spoiled(random: &mut Random) -> Vec<u8> {
    match random.once_in(5) {
        true => overfull(random),
        false => spoiled(random),
    }
}

/// A readable sheet whose rows break some rule or other.
pub fn spoiled(random: &mut Random) -> Vec<u8> {
    let mut schema = schemas::any(random);
    let times = match random.below(6) {
        0 | 1 => random.within(2..5),
        2 => 0,
        _ => 1,
    };
    for _ in 0..times {
        spoil::any_row(random, &mut schema);
    }
    if times == 0 {
        spoil::inheritances(random, &mut schema);
    }
    writing::sheet(&schema)
}

/// A sheet with one row too many, in one table.
pub fn overfull(random: &mut Random) -> Vec<u8> {
    let (attributes, classes) = match random.once_in(2) {
        true => (ATTRIBUTE_LIMIT, random.below(2)),
        false => (random.below(3), CLASS_LIMIT),
    };
    let size = Size {
        attributes,
        classes,
        entries: 1,
    };
    let mut schema = schemas::schema(random, size);
    one_more(random, &mut schema);
    writing::sheet(&schema)
}

fn one_more(random: &mut Random, schema: &mut Schema) {
    let common = rows::common(random, schema);
    if schema.attributes.len() == ATTRIBUTE_LIMIT {
        let attribute = rows::attribute(random, schema, common);
        schema.attributes.push(attribute);
    } else {
        let class = rows::class(random, schema, common);
        schema.classes.push(class);
    }
}

/// A sheet where 08 is absent beside 127, or present beside others: accepted,
/// but written back otherwise.
pub fn other_object_classes(random: &mut Random) -> Vec<u8> {
    let mut schema = schemas::any(random);
    for attribute in &mut schema.attributes {
        match random.below(3) {
            0 => attribute.om_object_class.clear(),
            1 if attribute.om_object_class.is_empty() => {
                let length = random.within(1..17);
                attribute.om_object_class = random.bytes(length);
            }
            _ => {}
        }
    }
    writing::sheet(&schema)
}

/// Random bytes, many of them tags or zero.
pub fn noise(random: &mut Random) -> Vec<u8> {
    let heading = random.once_in(2);
    let start: &[u8] = if heading {
        &[0x01, 0x00, 0x01, 0x01]
    } else {
        &[]
    };
    let length = random.below(80);
    let mut bytes = start.to_vec();
    for _ in 0..length {
        let likely = random.pick(&[0x00, 0x00, 0x01, 0x04, 0x20, 0x30, 0x40, 0x49]);
        let likely = likely.copied().unwrap_or(0);
        bytes.push(if random.once_in(3) {
            random.byte()
        } else {
            likely
        });
    }
    bytes
}
