//! Whole schemas that a load accepts.

use crate::random::Random;
use crate::rows;
use reference::schema::{ATTRIBUTE_LIMIT, Attribute, CLASS_LIMIT, Class, Schema};

/// How many rows, and how many entries in a list at most.
#[derive(Clone, Copy, Debug)]
pub struct Size {
    /// Attribute rows.
    pub attributes: usize,
    /// Class rows.
    pub classes: usize,
    /// Entries in a list at most.
    pub entries: usize,
}

impl Size {
    /// A size of any kind: none, tiny, typical, and now and then full.
    pub fn any(random: &mut Random) -> Size {
        match random.below(40) {
            0 => Size::full(random),
            1 | 2 => Size::empty(random),
            3..=18 => Size::tiny(random),
            _ => Size::typical(random),
        }
    }

    /// No classes, or no attributes, or neither.
    pub fn empty(random: &mut Random) -> Size {
        let (attributes, classes) = match random.below(3) {
            0 => (0, 0),
            1 => (random.within(1..5), 0),
            _ => (0, random.within(1..5)),
        };
        Size {
            attributes,
            classes,
            entries: 2,
        }
    }

    /// A handful of rows.
    pub fn tiny(random: &mut Random) -> Size {
        Size {
            attributes: random.within(1..6),
            classes: random.within(1..6),
            entries: 3,
        }
    }

    /// Some dozens of rows.
    pub fn typical(random: &mut Random) -> Size {
        Size {
            attributes: random.within(5..60),
            classes: random.within(5..40),
            entries: random.within(1..8),
        }
    }

    /// One table full, or both, or just not.
    pub fn full(random: &mut Random) -> Size {
        let less = random.below(2);
        match random.below(3) {
            0 => Size {
                attributes: ATTRIBUTE_LIMIT - less,
                classes: random.below(6),
                entries: 3,
            },
            1 => Size {
                attributes: random.below(10),
                classes: CLASS_LIMIT - less,
                entries: 3,
            },
            _ => Size {
                attributes: ATTRIBUTE_LIMIT,
                classes: CLASS_LIMIT,
                entries: 6,
            },
        }
    }
}

/// A schema of any size.
pub fn any(random: &mut Random) -> Schema {
    let size = Size::any(random);
    schema(random, size)
}

/// A schema of this size.
pub fn schema(random: &mut Random, size: Size) -> Schema {
    let mut schema = Schema::default();
    for _ in 0..size.attributes {
        let attribute = standing_attribute(random, &schema);
        schema.attributes.push(attribute);
    }
    for _ in 0..size.classes {
        let class = standing_class(random, &schema);
        schema.classes.push(class);
    }
    fill_all_lists(random, &mut schema, size.entries);
    schema
}

/// An attribute for a schema to be loaded.
pub fn standing_attribute(random: &mut Random, schema: &Schema) -> Attribute {
    let common = rows::standing_common(random, schema);
    rows::attribute(random, schema, common)
}

/// A class for a schema to be loaded. Row 0 is seldom defunct, since all rows
/// under it are defunct then.
fn standing_class(random: &mut Random, schema: &Schema) -> Class {
    let mut common = rows::standing_common(random, schema);
    if schema.classes.is_empty() && !random.once_in(8) {
        common.defunct = false;
    }
    rows::class(random, schema, common)
}

/// Lists are filled when all rows stand, so that classes list later ones,
/// themselves and each other.
fn fill_all_lists(random: &mut Random, schema: &mut Schema, entries: usize) {
    for place in 0..schema.classes.len() {
        let mut class = schema.classes[place].clone();
        if !random.once_in(4) {
            rows::fill_lists(random, schema, &mut class, entries);
        }
        schema.classes[place] = class;
    }
}
