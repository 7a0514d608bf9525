//! Rules 17 and 18: the rows a class names.

use crate::schema::{Class, Common, Schema};

/// "Where a rule says "live", the named row must exist, and must be active if
/// the naming row is."
pub fn is_live(named: Option<&Common>, naming: &Common) -> bool {
    named.is_some_and(|named| named.is_active() || naming.defunct)
}

/// "17 A named attribute not live."
pub fn attribute_not_live(schema: &Schema, class: &Class) -> bool {
    let live = |number| {
        let named = schema.attribute(number).map(|attribute| &attribute.common);
        is_live(named, &class.common)
    };
    !class.named_attributes().all(live)
}

/// "18 A named class not live"
pub fn class_not_live(schema: &Schema, class: &Class) -> bool {
    let live = |number| {
        let named = schema.class(number).map(|named| &named.common);
        is_live(named, &class.common)
    };
    !class.named_classes().all(live)
}

/// "or a superclass that isn't earlier (for row 0: isn't row 0, also when
/// added to an empty table)"
pub fn superclass_not_earlier(number: u16, class: &Class) -> bool {
    match number {
        0 => class.superclass != 0,
        _ => class.superclass >= number,
    }
}

/// "No list of an added class may hold its own number; a loaded or reactivated
/// one's may."
pub fn lists(class: &Class, own_number: u16) -> bool {
    class.listed_classes().any(|number| number == own_number)
}
