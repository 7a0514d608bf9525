//! Rules 24 to 29 and 45: the values that only attribute rows have.

use super::naming::is_live;
use crate::schema::{Attribute, Schema};
use crate::syntax;

/// "24 A present mAPIID is taken."
pub fn mapi_id_taken(schema: &Schema, number: u16, attribute: &Attribute) -> bool {
    attribute.mapi_id.is_some()
        && others(schema, number).any(|rival| rival.mapi_id == attribute.mapi_id)
}

/// "25 Both ranges present", and, as document 02's wish 1 has it, "only where
/// rangeLower is greater than rangeUpper; both negative and equal passes too".
pub fn range_crossed(attribute: &Attribute) -> bool {
    match (attribute.range_lower, attribute.range_upper) {
        (Some(lower), Some(upper)) => lower > upper,
        _ => false,
    }
}

/// "26 Syntax and oMSyntax don't match"
pub fn syntaxes_do_not_match(attribute: &Attribute) -> bool {
    !syntax::om_syntaxes(attribute.syntax).contains(&attribute.om_syntax)
}

/// "27 oMSyntax 127 with a wrong oMObjectClass."
pub fn wrong_object_class(attribute: &Attribute) -> bool {
    let stored = attribute.om_object_class.as_slice();
    attribute.om_syntax == syntax::OBJECT
        && !syntax::object_classes(attribute.syntax).contains(&stored)
}

/// "28 A present linkID is taken."
pub fn link_id_taken(schema: &Schema, number: u16, attribute: &Attribute) -> bool {
    attribute.link_id.is_some()
        && others(schema, number).any(|rival| rival.link_id == attribute.link_id)
}

/// "29 An odd linkID without a live attribute holding the number one less; 1
/// never has one."
pub fn forward_link_missing(schema: &Schema, attribute: &Attribute) -> bool {
    let Some(odd) = attribute.link_id.filter(|link| link % 2 == 1) else {
        return false;
    };
    let holds_one_less = |forward: &&Attribute| forward.link_id == Some(odd - 1);
    let forward_links = schema.attributes.iter().filter(holds_one_less);
    let mut live = forward_links.filter(|f| is_live(Some(&f.common), &attribute.common));
    live.next().is_none()
}

/// "a present even linkID needs 2.5.5.1, 2.5.5.7 or 2.5.5.14, an odd one
/// 2.5.5.1 .. Refusals: 45" (document 02, wish 8)
pub fn link_holds_no_names(attribute: &Attribute) -> bool {
    match attribute.link_id {
        Some(link) if link % 2 == 0 => !matches!(attribute.syntax, 1 | 7 | 14),
        Some(_) => attribute.syntax != 1,
        None => false,
    }
}

/// "A row is not its own rival; defunct rows count (house), here and below."
fn others(schema: &Schema, number: u16) -> impl Iterator<Item = &Attribute> {
    let before = schema.attributes.iter().take(usize::from(number));
    before.chain(schema.attributes.iter().skip(usize::from(number) + 1))
}
