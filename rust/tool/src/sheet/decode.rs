//! The rows of a sheet.
//!
//! Whether the bytes are a sheet is for the keeper to say. What is read here is
//! read after it has spoken, so that rows can be named: what does not fit is
//! passed over, also in a sheet that the keeper refused.

use super::fields::{Field, fields};
use crate::rows::{Attribute, Class, Common, Schema};
use std::collections::BTreeSet;

/// The rows of a sheet, in their order.
pub fn decode(sheet: &[u8]) -> Schema {
    let mut schema = Schema::default();
    for row in fields(sheet, 0) {
        match row.tag {
            0x20 => schema.attributes.push(attribute(row.value)),
            0x30 => schema.classes.push(class(row.value)),
            _ => {}
        }
    }
    schema
}

fn attribute(value: &[u8]) -> Attribute {
    let mut row = Attribute::default();
    for field in fields(value, 0) {
        match field.tag {
            0x06 => row.syntax = byte(&field),
            0x07 => row.om_syntax = byte(&field),
            0x08 => row.object_class = field.value.to_vec(),
            0x09 => row.single = true,
            0x0A => row.lower = quad(field.value).map(u32::cast_signed),
            0x0B => row.upper = quad(field.value).map(u32::cast_signed),
            0x0C => row.link = quad(field.value),
            0x0D => row.mapi = quad(field.value),
            _ => common(&field, &mut row.common),
        }
    }
    row
}

fn class(value: &[u8]) -> Class {
    let mut row = Class::default();
    for field in fields(value, 0) {
        match field.tag {
            0x10 => row.category = byte(&field),
            0x11 => row.superclass = pairs(field.value).next().unwrap_or(0),
            0x12 => row.naming = pairs(field.value).next(),
            0x13..=0x19 => row.lists[usize::from(field.tag - 0x13)] = set(&field),
            _ => common(&field, &mut row.common),
        }
    }
    row
}

/// Takes a field that any row may have.
fn common(field: &Field, row: &mut Common) {
    match field.tag {
        0x01 => row.name = field.value.to_vec(),
        0x02 => row.arcs = field.value.chunks(4).filter_map(quad).collect(),
        0x03 => row.guid = field.value.try_into().unwrap_or_default(),
        0x04 => row.flags = quad(field.value).unwrap_or(0),
        0x05 => row.defunct = true,
        _ => {}
    }
}

fn byte(field: &Field) -> u8 {
    field.value.first().copied().unwrap_or(0)
}

fn quad(value: &[u8]) -> Option<u32> {
    value.try_into().ok().map(u32::from_be_bytes)
}

fn pairs(value: &[u8]) -> impl Iterator<Item = u16> {
    value
        .chunks_exact(2)
        .map(|pair| u16::from_be_bytes([pair[0], pair[1]]))
}

fn set(field: &Field) -> BTreeSet<u16> {
    pairs(field.value).collect()
}
