//! Sheets and changes that are damaged, field by field or byte by byte.

use crate::random::Random;

/// A field, whose value is bytes or fields.
#[derive(Clone, Debug)]
struct Field {
    tag: u8,
    value: Value,
}

#[derive(Clone, Debug)]
enum Value {
    Bytes(Vec<u8>),
    Fields(Vec<Field>),
}

/// Bytes damaged once or twice.
pub fn damaged(random: &mut Random, bytes: &[u8]) -> Vec<u8> {
    let mut bytes = bytes.to_vec();
    for _ in 0..random.within(1..3) {
        bytes = match random.below(5) {
            0 | 1 => by_bytes(random, bytes),
            _ => by_fields(random, &bytes),
        };
    }
    bytes
}

/// Bit flips, cuts, length edits, limit values.
fn by_bytes(random: &mut Random, mut bytes: Vec<u8>) -> Vec<u8> {
    let place = random.below(bytes.len());
    let limit = random
        .pick(&[0x00, 0x01, 0x7F, 0x80, 0xFF, 0x20, 0x30])
        .copied();
    match random.below(7) {
        0 => bytes.truncate(place),
        1 => bytes.extend(limit),
        2 if !bytes.is_empty() => drop(bytes.remove(place)),
        3 => bytes.splice(place..place, limit).for_each(drop),
        4 => bytes[place..]
            .iter_mut()
            .take(1)
            .for_each(|byte| *byte = limit.unwrap_or(0)),
        5 => edit_length(random, &mut bytes),
        _ => {
            let bit = 1 << random.below(8);
            bytes[place..]
                .iter_mut()
                .take(1)
                .for_each(|byte| *byte ^= bit);
        }
    }
    bytes
}

/// Makes some field's length a little wrong.
fn edit_length(random: &mut Random, bytes: &mut [u8]) {
    let starts = field_starts(bytes);
    let Some(start) = random.pick(&starts).copied() else {
        return;
    };
    let length = u16::from_be_bytes([bytes[start + 1], bytes[start + 2]]);
    let wrong = match random.below(6) {
        0 => length.wrapping_add(1),
        1 => length.wrapping_sub(1),
        2 => length.wrapping_add(3),
        3 => 0,
        4 => 0xFFFF,
        _ => length.wrapping_add(256),
    };
    bytes[start + 1..start + 3].copy_from_slice(&wrong.to_be_bytes());
}

/// Where whole fields begin, those inside others too.
fn field_starts(bytes: &[u8]) -> Vec<usize> {
    let mut starts = Vec::new();
    let mut place = 0;
    while let Some([tag, high, low]) = bytes.get(place..place + 3) {
        starts.push(place);
        let length = usize::from(u16::from_be_bytes([*high, *low]));
        place += 3;
        if !holds_fields(*tag, place == 3) {
            place += length;
        }
    }
    starts
}

/// Whether a field's value is fields: rows, and changes at the very start (20
/// is also the target's tag inside a change, but its value is too short to
/// hold a field).
fn holds_fields(tag: u8, first: bool) -> bool {
    matches!(tag, 0x20 | 0x30) || first && matches!(tag, 0x40..=0x4A)
}

/// Fields swapped, doubled, dropped, put in, or given other values.
fn by_fields(random: &mut Random, bytes: &[u8]) -> Vec<u8> {
    let Some(mut fields) = parse(bytes, true) else {
        return by_bytes(random, bytes.to_vec());
    };
    if random.once_in(6) {
        damage_fields(random, &mut fields);
    } else {
        let inside = fields
            .iter_mut()
            .filter_map(|field| match &mut field.value {
                Value::Fields(inner) => Some(inner),
                Value::Bytes(_) => None,
            });
        let mut inside: Vec<&mut Vec<Field>> = inside.collect();
        let place = random.below(inside.len());
        if let Some(inner) = inside.get_mut(place) {
            damage_fields(random, inner);
        }
    }
    encode(&fields)
}

/// The fields in these bytes, if they are whole.
fn parse(mut bytes: &[u8], outermost: bool) -> Option<Vec<Field>> {
    let mut fields = Vec::new();
    while let [tag, high, low, rest @ ..] = bytes {
        let length = usize::from(u16::from_be_bytes([*high, *low]));
        let (value, after) = rest.split_at_checked(length)?;
        let inner = match outermost && holds_fields(*tag, true) {
            true => parse(value, false).map(Value::Fields),
            false => None,
        };
        let value = inner.unwrap_or_else(|| Value::Bytes(value.to_vec()));
        fields.push(Field { tag: *tag, value });
        bytes = after;
    }
    bytes.is_empty().then_some(fields)
}

fn encode(fields: &[Field]) -> Vec<u8> {
    let mut bytes = Vec::new();
    for field in fields {
        let value = match &field.value {
            Value::Bytes(value) => value.clone(),
            Value::Fields(inner) => encode(inner),
        };
        bytes.extend(reference::writing::field(field.tag, &value));
    }
    bytes
}

fn damage_fields(random: &mut Random, fields: &mut Vec<Field>) {
    let place = random.below(fields.len());
    let other = random.below(fields.len());
    match random.below(9) {
        0 if !fields.is_empty() => fields.swap(place, other),
        1 if !fields.is_empty() => fields.insert(other, fields[place].clone()),
        2 if !fields.is_empty() => drop(fields.remove(place)),
        3 => fields.insert(place, foreign_field(random)),
        4 => fields.push(foreign_field(random)),
        5 => {
            if let Some(field) = fields.get_mut(place) {
                field.tag = any_tag(random);
            }
        }
        _ => {
            if let Some(field) = fields.get_mut(place) {
                damage_value(random, &mut field.value);
            }
        }
    }
}

fn any_tag(random: &mut Random) -> u8 {
    match random.below(4) {
        0 => random.byte(),
        1 => random.within(0x20..0x23) as u8,
        _ => random.within(0x01..0x1B) as u8,
    }
}

fn foreign_field(random: &mut Random) -> Field {
    let length = random.pick(&[0, 0, 1, 2, 4, 4, 16]).copied().unwrap_or(0);
    Field {
        tag: any_tag(random),
        value: Value::Bytes(random.bytes(length)),
    }
}

/// Values at, over and under their limits.
fn damage_value(random: &mut Random, value: &mut Value) {
    let Value::Bytes(bytes) = value else {
        return;
    };
    match random.below(9) {
        0 => bytes.clear(),
        1 => *bytes = vec![b'a'; random.within(63..66)],
        2 => *bytes = vec![0; 4 * random.within(15..18)],
        3 => bytes.fill(0xFF),
        4 => bytes.fill(0),
        5 => bytes.extend_from_within(..bytes.len().min(2)),
        6 => bytes.push(random.byte()),
        7 => *bytes = limit_entry(random),
        _ => bytes.reverse(),
    }
}

/// One or two entries near 128 and 256.
fn limit_entry(random: &mut Random) -> Vec<u8> {
    let limits = [0u16, 1, 126, 127, 128, 129, 254, 255, 256, 257, 65_535];
    let count = random.within(1..3);
    let entries = (0..count).filter_map(|_| random.pick(&limits).copied());
    entries.flat_map(u16::to_be_bytes).collect()
}
