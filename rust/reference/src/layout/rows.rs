//! One row's bytes and the value they stand for.

use super::BrokenShape;
use super::cells::{self, Cells};
use crate::big_endian;
use crate::closure::Kept;
use crate::schema::{
    ARC_LIMIT, ATTRIBUTE_LIMIT, Attribute, CLASS_LIMIT, Category, Class, Common, NAME_LIMIT,
    OBJECT_CLASS_LIMIT,
};
use crate::syntax;

/// Bytes of a set of attributes.
const ATTRIBUTE_SET: usize = ATTRIBUTE_LIMIT / 8;
/// Bytes of a set of classes.
const CLASS_SET: usize = CLASS_LIMIT / 8;

fn decode_common(cells: &mut Cells) -> Result<Common, BrokenShape> {
    Ok(Common {
        name: cells.counted(NAME_LIMIT, 1)?.to_vec(),
        arcs: big_endian::arcs(cells.counted(ARC_LIMIT, 4)?),
        guid: cells.number(16),
        system_flags: cells.number(4) as u32,
        defunct: cells.flag()?,
    })
}

pub fn decode_attribute(row: &[u8]) -> Result<Attribute, BrokenShape> {
    let mut cells = Cells::new(row);
    let attribute = Attribute {
        common: decode_common(&mut cells)?,
        syntax: cells.byte(),
        om_syntax: cells.byte(),
        om_object_class: cells.counted(OBJECT_CLASS_LIMIT, 1)?.to_vec(),
        single_valued: cells.flag()?,
        range_lower: cells.optional(4)?.map(|end| end as u32 as i32),
        range_upper: cells.optional(4)?.map(|end| end as u32 as i32),
        link_id: zero_is_absent(cells.number(4) as u32),
        mapi_id: zero_is_absent(cells.number(4) as u32),
    };
    let object_class = &attribute.om_object_class;
    if !syntax::could_be_stored(attribute.syntax, attribute.om_syntax, object_class) {
        return Err(BrokenShape);
    }
    Ok(attribute)
}

/// "linkID and mAPIID (0 is absent)"
fn zero_is_absent(number: u32) -> Option<u32> {
    Some(number).filter(|number| *number != 0)
}

pub fn decode_class(row: &[u8]) -> Result<Class, BrokenShape> {
    let mut cells = Cells::new(row);
    let class = Class {
        common: decode_common(&mut cells)?,
        category: Category::from_number(cells.byte()).ok_or(BrokenShape)?,
        superclass: decode_class_number(cells.byte())?,
        naming: cells.optional(1)?.map(|attribute| attribute as u16),
        mandatory: cells.set(ATTRIBUTE_SET),
        fixed_optional: cells.set(ATTRIBUTE_SET),
        open_optional: cells.set(ATTRIBUTE_SET),
        fixed_auxiliary: cells.set(CLASS_SET),
        open_auxiliary: cells.set(CLASS_SET),
        fixed_superiors: cells.set(CLASS_SET),
        open_superiors: cells.set(CLASS_SET),
    };
    Ok(class)
}

/// "a class number of 128 ... or more ... is unreadable", so it is never stored.
fn decode_class_number(byte: u8) -> Result<u16, BrokenShape> {
    if usize::from(byte) < CLASS_LIMIT {
        Ok(u16::from(byte))
    } else {
        Err(BrokenShape)
    }
}

/// "any bytes pass for kept sets"
pub fn decode_kept(row: &[u8]) -> Kept {
    let mut cells = Cells::new(row);
    Kept {
        reached: cells.set(CLASS_SET),
        mandatory: cells.set(ATTRIBUTE_SET),
        optional: cells.set(ATTRIBUTE_SET),
    }
}

fn encode_common(common: &Common) -> Vec<u8> {
    let arcs: Vec<u8> = common
        .arcs
        .iter()
        .flat_map(|arc| arc.to_be_bytes())
        .collect();
    [
        cells::counted(common.name.len(), &common.name, NAME_LIMIT),
        cells::counted(common.arcs.len(), &arcs, ARC_LIMIT * 4),
        common.guid.to_be_bytes().to_vec(),
        common.system_flags.to_be_bytes().to_vec(),
        vec![u8::from(common.defunct)],
    ]
    .concat()
}

pub fn encode_attribute(attribute: &Attribute) -> Vec<u8> {
    let object_class = &attribute.om_object_class;
    [
        encode_common(&attribute.common),
        vec![attribute.syntax, attribute.om_syntax],
        cells::counted(object_class.len(), object_class, OBJECT_CLASS_LIMIT),
        vec![u8::from(attribute.single_valued)],
        cells::optional(attribute.range_lower.map(i32::to_be_bytes)),
        cells::optional(attribute.range_upper.map(i32::to_be_bytes)),
        attribute.link_id.unwrap_or(0).to_be_bytes().to_vec(),
        attribute.mapi_id.unwrap_or(0).to_be_bytes().to_vec(),
    ]
    .concat()
}

pub fn encode_class(class: &Class) -> Vec<u8> {
    [
        encode_common(&class.common),
        vec![class.category.number(), class.superclass as u8],
        cells::optional(class.naming.map(|attribute| [attribute as u8])),
        cells::set(&class.mandatory, ATTRIBUTE_SET),
        cells::set(&class.fixed_optional, ATTRIBUTE_SET),
        cells::set(&class.open_optional, ATTRIBUTE_SET),
        cells::set(&class.fixed_auxiliary, CLASS_SET),
        cells::set(&class.open_auxiliary, CLASS_SET),
        cells::set(&class.fixed_superiors, CLASS_SET),
        cells::set(&class.open_superiors, CLASS_SET),
    ]
    .concat()
}

pub fn encode_kept(kept: &Kept) -> Vec<u8> {
    [
        cells::set(&kept.reached, CLASS_SET),
        cells::set(&kept.mandatory, ATTRIBUTE_SET),
        cells::set(&kept.optional, ATTRIBUTE_SET),
    ]
    .concat()
}
