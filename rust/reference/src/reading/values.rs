//! Which values of a field are readable, and what they hold. "Category over 3,
//! a class number of 128 or an attribute number of 256 or more, or a length
//! not the stated one, above its limit or not of whole entries is unreadable."

use crate::big_endian::{entries, number};
use crate::schema::{
    ARC_LIMIT, ATTRIBUTE_LIMIT, CLASS_LIMIT, Category, NAME_LIMIT, Numbers, OBJECT_CLASS_LIMIT,
    OpenList,
};

/// The entries as a set.
pub fn set(bytes: &[u8]) -> Numbers {
    entries(bytes).into_iter().collect()
}

/// "21 (one byte: 15, 17, 19)", the tags of the open lists (R25)
pub fn list(bytes: &[u8]) -> Option<OpenList> {
    match bytes {
        [0x15] => Some(OpenList::Optional),
        [0x17] => Some(OpenList::Auxiliary),
        [0x19] => Some(OpenList::PossibleSuperiors),
        _ => None,
    }
}

/// "display name (up to 64 bytes)"; it may be empty (R13)
pub fn is_name(value: &[u8]) -> bool {
    value.len() <= NAME_LIMIT
}

/// "02 arcs (4 bytes each)", "up to 16 arcs"; there may be none (R13)
pub fn is_arcs(value: &[u8]) -> bool {
    value.len() <= ARC_LIMIT * 4 && value.len().is_multiple_of(4)
}

/// "schemaIDGUID (16 bytes)"
pub fn is_guid(value: &[u8]) -> bool {
    value.len() == 16
}

/// "length 0"
pub fn is_empty(value: &[u8]) -> bool {
    value.is_empty()
}

/// "a byte each"
pub fn is_byte(value: &[u8]) -> bool {
    value.len() == 1
}

/// "any u16"
pub fn is_u16(value: &[u8]) -> bool {
    value.len() == 2
}

/// "4 bytes"
pub fn is_four(value: &[u8]) -> bool {
    value.len() == 4
}

/// "4 bytes, the last two not zero": that is, linkID and mAPIID.
pub fn is_four_not_zero(value: &[u8]) -> bool {
    value.len() == 4 && number(value) != 0
}

/// "08 oMObjectClass (not empty)", "up to 16 bytes"
pub fn is_object_class(value: &[u8]) -> bool {
    !value.is_empty() && value.len() <= OBJECT_CLASS_LIMIT
}

/// "Category over 3 ... is unreadable"
pub fn is_category(value: &[u8]) -> bool {
    matches!(value, [byte] if Category::from_number(*byte).is_some())
}

/// "a class number of 128 ... or more ... is unreadable"
pub fn is_class(value: &[u8]) -> bool {
    value.len() == 2 && number(value) < CLASS_LIMIT as u128
}

/// "an attribute number of 256 or more ... is unreadable"
pub fn is_attribute(value: &[u8]) -> bool {
    value.len() == 2 && number(value) < ATTRIBUTE_LIMIT as u128
}

/// A set of attributes.
pub fn is_attribute_set(value: &[u8]) -> bool {
    is_set(value, ATTRIBUTE_LIMIT)
}

/// A set of classes.
pub fn is_class_set(value: &[u8]) -> bool {
    is_set(value, CLASS_LIMIT)
}

/// "two bytes an entry, strictly rising, not empty"
fn is_set(value: &[u8], limit: usize) -> bool {
    let entries = entries(value);
    let within = |entry: &u16| usize::from(*entry) < limit;
    !value.is_empty()
        && value.len().is_multiple_of(2)
        && entries.is_sorted_by(|a, b| a < b)
        && entries.iter().all(within)
}

/// "21 (one byte: 15, 17, 19)"
pub fn is_list(value: &[u8]) -> bool {
    list(value).is_some()
}
