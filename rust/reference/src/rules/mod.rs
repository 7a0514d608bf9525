//! "Schema rules (000, X.660, RFC 4512)": rules 12 to 29, and 38 to 40 and 45,
//! which are meant too "wherever these papers name rules 12 to 29" (document 02,
//! wishes 3 and 8). "All rules bind defunct rows too."

mod hierarchy;
mod identity;
mod naming;
mod values;

pub use naming::is_live;

use crate::schema::{Attribute, Class, Row, Schema};

/// The schema rules in the order of judging: 38 to 40 "stand at 21's place in
/// the order, in the order given here, though their numbers are higher", and
/// the "smallest is the first in this order" (document 02, wish 3). 22 "is not
/// used again" (wish 7); 45 is "a schema rule after 29" (wish 8).
pub const RULES: [u64; 21] = [
    12, 13, 14, 15, 16, 17, 18, 19, 20, 21, 38, 39, 40, 23, 24, 25, 26, 27, 28, 29, 45,
];

/// The rows to be judged, and which of them was just added, if one was.
#[derive(Clone, Copy)]
pub struct Judged<'a> {
    /// All rows, as they are after the change.
    pub schema: &'a Schema,
    /// The row just added.
    pub added: Option<Row>,
}

impl<'a> Judged<'a> {
    /// Rows none of which was just added.
    pub fn standing(schema: &'a Schema) -> Self {
        Judged {
            schema,
            added: None,
        }
    }

    /// The first rule broken by any row, and the first row that breaks it:
    /// "the table and lowest row that break the rule found, attributes first".
    pub fn first_broken(&self) -> Option<(u64, Row)> {
        let breaker = |rule| self.schema.rows().find(|row| self.breaks(rule, *row));
        RULES
            .into_iter()
            .find_map(|rule| Some((rule, breaker(rule)?)))
    }

    /// The first rule broken by one row, "for the changed row alone,
    /// against all rows".
    pub fn first_broken_by(&self, row: Row) -> Option<u64> {
        RULES.into_iter().find(|rule| self.breaks(*rule, row))
    }

    /// Whether a row breaks a rule.
    pub fn breaks(&self, rule: u64, row: Row) -> bool {
        if rule <= 16 {
            return identity::breaks(self.schema, rule, row);
        }
        match row {
            Row::Attribute(number) => self
                .schema
                .attribute(number)
                .is_some_and(|attribute| self.attribute_breaks(rule, number, attribute)),
            Row::Class(number) => self
                .schema
                .class(number)
                .is_some_and(|class| self.class_breaks(rule, number, class)),
        }
    }

    fn class_breaks(&self, rule: u64, number: u16, class: &Class) -> bool {
        let schema = self.schema;
        match rule {
            17 => naming::attribute_not_live(schema, class),
            18 => {
                naming::class_not_live(schema, class)
                    || naming::superclass_not_earlier(number, class)
                    || self.added == Some(Row::Class(number)) && naming::lists(class, number)
            }
            19 => hierarchy::wrong_auxiliary(schema, class),
            20 => hierarchy::wrong_possible_superior(schema, class),
            21 => hierarchy::root_not_abstract(number, class),
            38 => hierarchy::abstract_under_other(schema, number, class),
            39 => hierarchy::auxiliary_under_structural(schema, number, class),
            40 => hierarchy::structural_under_auxiliary(schema, number, class),
            23 => hierarchy::wrong_naming_attribute(schema, class),
            _ => false,
        }
    }

    fn attribute_breaks(&self, rule: u64, number: u16, attribute: &Attribute) -> bool {
        let schema = self.schema;
        match rule {
            24 => values::mapi_id_taken(schema, number, attribute),
            25 => values::range_crossed(attribute),
            26 => values::syntaxes_do_not_match(attribute),
            27 => values::wrong_object_class(attribute),
            28 => values::link_id_taken(schema, number, attribute),
            29 => values::forward_link_missing(schema, attribute),
            45 => values::link_holds_no_names(attribute),
            _ => false,
        }
    }
}
