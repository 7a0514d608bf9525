//! The schemas that are measured: the forest owners', one with full tables and
//! short lists, and the same with every list full. Two more have half and a
//! quarter of the rows, to see how cost grows with them.

use generate::Random;
use generate::schemas::{Size, schema};
use reference::schema::{ATTRIBUTE_LIMIT, CLASS_LIMIT, Category, Class, Schema};
use reference::writing;
use std::{fs, io};

/// The seed of the full tables.
const SEED: u64 = 15;

/// The names of the schemas.
pub const NAMES: [&str; 3] = ["forest", "sparse", "dense"];

/// The sheet of a schema; any other name is a file's.
pub fn sheet(name: &str) -> io::Result<Vec<u8>> {
    match name {
        "forest" => fs::read(concat!(
            env!("CARGO_MANIFEST_DIR"),
            "/../../samples/forest.sheet"
        )),
        "quarter" => Ok(writing::sheet(&short_lists(4))),
        "half" => Ok(writing::sheet(&short_lists(2))),
        "sparse" => Ok(writing::sheet(&short_lists(1))),
        "dense" => Ok(writing::sheet(&dense())),
        path => fs::read(path),
    }
}

/// Both tables filled to a part, a few entries in each list.
fn short_lists(part: usize) -> Schema {
    let size = Size {
        attributes: ATTRIBUTE_LIMIT / part,
        classes: CLASS_LIMIT / part,
        entries: 6,
    };
    schema(&mut Random::new(SEED), size)
}

/// Both tables full, and every list of an active class too: of all that it may
/// hold, the open lists have the even numbers and the fixed ones the others, so
/// that something can be removed, and row 5 is left out, so that something can
/// be added.
fn dense() -> Schema {
    let mut schema = short_lists(1);
    let before = schema.clone();
    for (class, whole) in schema.classes.iter_mut().zip(&before.classes) {
        if whole.common.is_active() {
            fill(class, &before);
        }
    }
    schema
}

fn fill(class: &mut Class, schema: &Schema) {
    let listed = |fits: &dyn Fn(Category) -> bool, odd: bool| {
        let rows = schema.classes.iter().zip(0u16..);
        rows.filter(|(row, number)| {
            row.common.is_active() && fits(row.category) && *number != 5 && (number % 2 == 1) == odd
        })
        .map(|(_, number)| number)
        .collect()
    };
    let attributes = |odd: bool| {
        let rows = schema.attributes.iter().zip(0u16..);
        rows.filter(|(row, number)| {
            row.common.is_active() && *number != 5 && (number % 2 == 1) == odd
        })
        .map(|(_, number)| number)
        .collect()
    };
    let auxiliary = |category| matches!(category, Category::EightyEight | Category::Auxiliary);
    let superior = |category| matches!(category, Category::EightyEight | Category::Structural);
    class.mandatory = attributes(true);
    class.fixed_optional = attributes(true);
    class.open_optional = attributes(false);
    class.fixed_auxiliary = listed(&auxiliary, true);
    class.open_auxiliary = listed(&auxiliary, false);
    class.fixed_superiors = listed(&superior, true);
    class.open_superiors = listed(&superior, false);
}
