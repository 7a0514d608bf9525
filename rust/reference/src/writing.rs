//! Tables written as a sheet.

use crate::schema::{Attribute, Class, Common, Numbers, Schema};

/// "Sheet: field 01 holding 01, attribute rows 20, class rows 30"
pub fn sheet(schema: &Schema) -> Vec<u8> {
    let mut sheet = field(0x01, &[0x01]);
    for attribute in &schema.attributes {
        sheet.extend(field(0x20, &attribute_value(attribute)));
    }
    for class in &schema.classes {
        sheet.extend(field(0x30, &class_value(class)));
    }
    sheet
}

/// "Tagged fields: one byte tag, two bytes length, value"
pub fn field(tag: u8, value: &[u8]) -> Vec<u8> {
    let mut field = vec![tag];
    field.extend((value.len() as u16).to_be_bytes());
    field.extend(value);
    field
}

/// A field that stands only where it has something to say.
fn field_if(present: bool, tag: u8, value: &[u8]) -> Vec<u8> {
    if present {
        field(tag, value)
    } else {
        Vec::new()
    }
}

/// A field whose value may be absent.
fn field_of<const N: usize>(tag: u8, value: Option<[u8; N]>) -> Vec<u8> {
    value.map_or_else(Vec::new, |value| field(tag, &value))
}

/// "01 name, 02 arcs (4 bytes each), 03 GUID, 04 systemFlags; 05 defunct
/// (length 0, else absent)"
fn common_value(common: &Common) -> Vec<u8> {
    let arcs: Vec<u8> = common
        .arcs
        .iter()
        .flat_map(|arc| arc.to_be_bytes())
        .collect();
    [
        field(0x01, &common.name),
        field(0x02, &arcs),
        field(0x03, &common.guid.to_be_bytes()),
        field(0x04, &common.system_flags.to_be_bytes()),
        field_if(common.defunct, 0x05, &[]),
    ]
    .concat()
}

/// "06 syntax, 07 oMSyntax (a byte each); optional 08 oMObjectClass (not
/// empty), 09 single-valued (length 0), 0A and 0B ranges, 0C linkID, 0D mAPIID"
pub fn attribute_value(attribute: &Attribute) -> Vec<u8> {
    let object_class = &attribute.om_object_class;
    [
        common_value(&attribute.common),
        field(0x06, &[attribute.syntax]),
        field(0x07, &[attribute.om_syntax]),
        field_if(!object_class.is_empty(), 0x08, object_class),
        field_if(attribute.single_valued, 0x09, &[]),
        field_of(0x0A, attribute.range_lower.map(i32::to_be_bytes)),
        field_of(0x0B, attribute.range_upper.map(i32::to_be_bytes)),
        field_of(0x0C, attribute.link_id.map(u32::to_be_bytes)),
        field_of(0x0D, attribute.mapi_id.map(u32::to_be_bytes)),
    ]
    .concat()
}

/// "10 category, 11 superclass; optional 12 rDNAttID, 13 to 19 the seven sets
/// in the order above"
pub fn class_value(class: &Class) -> Vec<u8> {
    [
        common_value(&class.common),
        field(0x10, &[class.category.number()]),
        field(0x11, &class.superclass.to_be_bytes()),
        field_of(0x12, class.naming.map(u16::to_be_bytes)),
        set(0x13, &class.mandatory),
        set(0x14, &class.fixed_optional),
        set(0x15, &class.open_optional),
        set(0x16, &class.fixed_auxiliary),
        set(0x17, &class.open_auxiliary),
        set(0x18, &class.fixed_superiors),
        set(0x19, &class.open_superiors),
    ]
    .concat()
}

/// "two bytes an entry, strictly rising, not empty"
fn set(tag: u8, numbers: &Numbers) -> Vec<u8> {
    let entries: Vec<u8> = numbers
        .iter()
        .flat_map(|entry| entry.to_be_bytes())
        .collect();
    field_if(!numbers.is_empty(), tag, &entries)
}
