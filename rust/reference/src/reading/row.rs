//! Attribute rows and class rows: "values are fields in rising tag order, each
//! once".

use super::fields::{Fields, Reader, Slot, Unreadable, optional, required};
use super::values;
use crate::big_endian;
use crate::schema::{Attribute, Category, Class, Common, Numbers};
use crate::syntax;

/// "Row fields: 01 name, 02 arcs (4 bytes each), 03 GUID, 04 systemFlags"
const COMMON: [Slot; 4] = [
    required(0x01, values::is_name),
    required(0x02, values::is_arcs),
    required(0x03, values::is_guid),
    required(0x04, values::is_four),
];

/// "05 defunct (length 0, else absent)"
const DEFUNCT: [Slot; 1] = [optional(0x05, values::is_empty)];

/// "Attribute: 06 syntax, 07 oMSyntax (a byte each); optional 08 oMObjectClass
/// (not empty), 09 single-valued (length 0), 0A and 0B ranges, 0C linkID, 0D
/// mAPIID (4 bytes, the last two not zero)."
const ATTRIBUTE: [Slot; 8] = [
    required(0x06, values::is_byte),
    required(0x07, values::is_byte),
    optional(0x08, values::is_object_class),
    optional(0x09, values::is_empty),
    optional(0x0A, values::is_four),
    optional(0x0B, values::is_four),
    optional(0x0C, values::is_four_not_zero),
    optional(0x0D, values::is_four_not_zero),
];

/// "Class: 10 category, 11 superclass; optional 12 rDNAttID, 13 to 19 the
/// seven sets in the order above"
const CLASS: [Slot; 10] = [
    required(0x10, values::is_category),
    required(0x11, values::is_class),
    optional(0x12, values::is_attribute),
    optional(0x13, values::is_attribute_set),
    optional(0x14, values::is_attribute_set),
    optional(0x15, values::is_attribute_set),
    optional(0x16, values::is_class_set),
    optional(0x17, values::is_class_set),
    optional(0x18, values::is_class_set),
    optional(0x19, values::is_class_set),
];

/// An attribute row of a sheet.
pub fn attribute(reader: Reader) -> Result<Attribute, Unreadable> {
    let slots = COMMON.iter().chain(&DEFUNCT).chain(&ATTRIBUTE);
    Fields::read(reader, slots).map(|fields| attribute_of(&fields))
}

/// A class row of a sheet.
pub fn class(reader: Reader) -> Result<Class, Unreadable> {
    let slots = COMMON.iter().chain(&DEFUNCT).chain(&CLASS);
    Fields::read(reader, slots).map(|fields| class_of(&fields))
}

/// An attribute to be added: "value as a row, no 05".
pub fn added_attribute(reader: Reader) -> Result<Attribute, Unreadable> {
    let slots = COMMON.iter().chain(&ATTRIBUTE);
    Fields::read(reader, slots).map(|fields| attribute_of(&fields))
}

/// A class to be added: "value as a row, no 05".
pub fn added_class(reader: Reader) -> Result<Class, Unreadable> {
    let slots = COMMON.iter().chain(&CLASS);
    Fields::read(reader, slots).map(|fields| class_of(&fields))
}

fn common_of(fields: &Fields) -> Common {
    Common {
        name: fields.bytes(0x01).to_vec(),
        arcs: big_endian::arcs(fields.bytes(0x02)),
        guid: fields.number(0x03),
        system_flags: fields.number(0x04) as u32,
        defunct: fields.has(0x05),
    }
}

fn attribute_of(fields: &Fields) -> Attribute {
    let syntax = fields.number(0x06) as u8;
    let om_syntax = fields.number(0x07) as u8;
    Attribute {
        common: common_of(fields),
        syntax,
        om_syntax,
        om_object_class: syntax::stored_object_class(syntax, om_syntax, fields.get(0x08)),
        single_valued: fields.has(0x09),
        range_lower: range_end(fields, 0x0A),
        range_upper: range_end(fields, 0x0B),
        link_id: fields.optional_number(0x0C).map(|number| number as u32),
        mapi_id: fields.optional_number(0x0D).map(|number| number as u32),
    }
}

/// "signed, 32 bits, each may be absent"
pub fn range_end(fields: &Fields, tag: u8) -> Option<i32> {
    fields.optional_number(tag).map(|end| end as u32 as i32)
}

fn class_of(fields: &Fields) -> Class {
    let category = Category::from_number(fields.number(0x10) as u8);
    let set = |tag| -> Numbers { values::set(fields.bytes(tag)) };
    Class {
        common: common_of(fields),
        category: category.unwrap_or_default(),
        superclass: fields.number(0x11) as u16,
        naming: fields.optional_number(0x12).map(|number| number as u16),
        mandatory: set(0x13),
        fixed_optional: set(0x14),
        open_optional: set(0x15),
        fixed_auxiliary: set(0x16),
        open_auxiliary: set(0x17),
        fixed_superiors: set(0x18),
        open_superiors: set(0x19),
    }
}
