//! "Add attribute; add class; set a range; set a display name; deactivate;
//! reactivate; add to or remove from an open list. Nothing else changes a
//! row."

use crate::schema::{ATTRIBUTE_LIMIT, Attribute, CLASS_LIMIT, Class, OpenList, Row, Schema};

/// A change that was read.
#[derive(Clone, Debug, PartialEq, Eq)]
pub enum Change {
    /// 40
    AddAttribute(Attribute),
    /// 41
    AddClass(Class),
    /// 42 to 4A
    Alter {
        /// The target, which need not be there.
        target: Row,
        /// What is asked of it.
        alteration: Alteration,
    },
}

/// What a change asks of its target.
#[derive(Clone, Debug, PartialEq, Eq)]
pub enum Alteration {
    /// 42: "an end not given becomes absent"
    Range {
        /// The new rangeLower.
        lower: Option<i32>,
        /// The new rangeUpper.
        upper: Option<i32>,
    },
    /// 43, 44
    Name(Vec<u8>),
    /// 45, 46
    Deactivate,
    /// 47, 48
    Reactivate,
    /// 49
    AddEntry {
        /// The open list.
        list: OpenList,
        /// "any u16, absent rows counting as not live"
        entry: u16,
    },
    /// 4A
    RemoveEntry {
        /// The open list.
        list: OpenList,
        /// "any u16"
        entry: u16,
    },
}

impl Change {
    /// The row that the change is about: its target, or the row it adds, "an
    /// added row last in its table".
    pub fn row(&self, before: &Schema) -> Row {
        match self {
            Change::AddAttribute(_) => Row::Attribute(before.next_attribute()),
            Change::AddClass(_) => Row::Class(before.next_class()),
            Change::Alter { target, .. } => *target,
        }
    }

    /// The row that the change adds, if it adds one.
    pub fn added(&self, before: &Schema) -> Option<Row> {
        match self {
            Change::AddAttribute(_) | Change::AddClass(_) => Some(self.row(before)),
            Change::Alter { .. } => None,
        }
    }

    fn alteration(&self) -> Option<&Alteration> {
        match self {
            Change::Alter { alteration, .. } => Some(alteration),
            _ => None,
        }
    }
}

/// The smallest of the numbers 5 to 11 whose condition holds.
pub fn refusal(before: &Schema, change: &Change) -> Option<u64> {
    (5..=11).find(|number| holds(*number, before, change))
}

fn holds(number: u64, before: &Schema, change: &Change) -> bool {
    match number {
        5 => target_missing(before, change),
        6 => no_free_row(before, change),
        7 => wrongly_active_or_defunct(before, change),
        8 => base_row_protected(before, change),
        9 => base_row_added(change),
        10 => wrongly_listed_or_not(before, change),
        11 => still_needed(before, change),
        _ => false,
    }
}

/// "5 target row not there"
fn target_missing(before: &Schema, change: &Change) -> bool {
    change.alteration().is_some() && before.common(change.row(before)).is_none()
}

/// "6 no free row"
fn no_free_row(before: &Schema, change: &Change) -> bool {
    match change {
        Change::AddAttribute(_) => before.attributes.len() == ATTRIBUTE_LIMIT,
        Change::AddClass(_) => before.classes.len() == CLASS_LIMIT,
        Change::Alter { .. } => false,
    }
}

/// "7 target defunct, unless reactivated; or active and reactivated"
fn wrongly_active_or_defunct(before: &Schema, change: &Change) -> bool {
    let (Some(alteration), Some(common)) = (change.alteration(), before.common(change.row(before)))
    else {
        return false;
    };
    match alteration {
        Alteration::Reactivate => common.is_active(),
        _ => common.defunct,
    }
}

/// "8 base row, and range, display name or deactivation asked, even with equal
/// values"
fn base_row_protected(before: &Schema, change: &Change) -> bool {
    let asked = matches!(
        change.alteration(),
        Some(Alteration::Range { .. } | Alteration::Name(_) | Alteration::Deactivate)
    );
    let target = before.common(change.row(before));
    asked && target.is_some_and(|common| common.is_base())
}

/// "9 an added row has 0x10 set"
fn base_row_added(change: &Change) -> bool {
    match change {
        Change::AddAttribute(attribute) => attribute.common.is_base(),
        Change::AddClass(class) => class.common.is_base(),
        Change::Alter { .. } => false,
    }
}

/// "10 addition to a list: already in the open or fixed one; removal: not in
/// the open one"
fn wrongly_listed_or_not(before: &Schema, change: &Change) -> bool {
    let Some(class) = before.class(change.row(before).number()) else {
        return false;
    };
    match change.alteration() {
        Some(Alteration::AddEntry { list, entry }) => {
            class.open(*list).contains(entry) || class.fixed(*list).contains(entry)
        }
        Some(Alteration::RemoveEntry { list, entry }) => !class.open(*list).contains(entry),
        _ => false,
    }
}

/// "11 deactivation: an active class names the attribute, or another active
/// class names the class, in any list, as superclass or as rDNAttID; or an
/// active back link needs it"
fn still_needed(before: &Schema, change: &Change) -> bool {
    if change.alteration() != Some(&Alteration::Deactivate) {
        return false;
    }
    match change.row(before) {
        Row::Attribute(number) => {
            attribute_named(before, number) || back_link_needs(before, number)
        }
        Row::Class(number) => class_named(before, number),
    }
}

/// "an active class names the attribute"
fn attribute_named(before: &Schema, number: u16) -> bool {
    let mut active = before.classes.iter().filter(|c| c.common.is_active());
    active.any(|class| class.named_attributes().any(|named| named == number))
}

/// "or another active class names the class"
fn class_named(before: &Schema, number: u16) -> bool {
    let others = (0..).zip(&before.classes).filter(|(n, _)| *n != number);
    let mut active = others.filter(|(_, class)| class.common.is_active());
    active.any(|(_, class)| class.named_classes().any(|named| named == number))
}

/// "or an active back link needs it": it has an even linkID, and an active
/// attribute has the next number (R70).
fn back_link_needs(before: &Schema, number: u16) -> bool {
    let link = before.attribute(number).and_then(|target| target.link_id);
    let Some(even) = link.filter(|link| link % 2 == 0) else {
        return false;
    };
    let mut active = before.attributes.iter().filter(|a| a.common.is_active());
    active.any(|attribute| attribute.link_id == Some(even + 1))
}

/// The rows after a change that none of 5 to 11 refuses.
pub fn applied(before: &Schema, change: &Change) -> Schema {
    let mut after = before.clone();
    match change {
        Change::AddAttribute(attribute) => after.attributes.push(attribute.clone()),
        Change::AddClass(class) => after.classes.push(class.clone()),
        Change::Alter { target, alteration } => alter(&mut after, *target, alteration),
    }
    after
}

fn alter(schema: &mut Schema, target: Row, alteration: &Alteration) {
    let place = usize::from(target.number());
    match alteration {
        Alteration::Range { lower, upper } => {
            if let Some(attribute) = schema.attributes.get_mut(place) {
                attribute.range_lower = *lower;
                attribute.range_upper = *upper;
            }
        }
        Alteration::AddEntry { list, entry } => {
            if let Some(class) = schema.classes.get_mut(place) {
                class.open_mut(*list).insert(*entry);
            }
        }
        Alteration::RemoveEntry { list, entry } => {
            if let Some(class) = schema.classes.get_mut(place) {
                class.open_mut(*list).remove(entry);
            }
        }
        Alteration::Name(_) | Alteration::Deactivate | Alteration::Reactivate => {
            alter_common(schema, target, alteration);
        }
    }
}

fn alter_common(schema: &mut Schema, target: Row, alteration: &Alteration) {
    let Some(common) = schema.common_mut(target) else {
        return;
    };
    match alteration {
        Alteration::Name(name) => common.name = name.clone(),
        Alteration::Deactivate => common.defunct = true,
        Alteration::Reactivate => common.defunct = false,
        _ => {}
    }
}
