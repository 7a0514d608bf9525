//! Stores of every kind: in order, in shape but not in order, broken, short,
//! long.

use crate::random::Random;
use crate::schemas::{self, Size};
use crate::spoil;
use reference::closure::{self, Kept};
use reference::layout::Tables;
use reference::schema::{ATTRIBUTE_LIMIT, CLASS_LIMIT, Numbers, Schema};
use reference::{LENGTHS, PAST, Stores, writing};

/// Stores that a load accepted.
pub fn in_order(random: &mut Random) -> Stores {
    let schema = schemas::any(random);
    loaded(&schema)
}

/// Stores in order with a table that is full, or lacks one row.
pub fn nearly_full(random: &mut Random) -> Stores {
    let size = Size::full(random);
    loaded(&schemas::schema(random, size))
}

/// Stores that a schema was loaded into.
fn loaded(schema: &Schema) -> Stores {
    let mut stores = Stores::default();
    stores.load(&writing::sheet(schema));
    stores
}

/// Stores in shape whose rows, kept sets or both are wrong.
pub fn out_of_order(random: &mut Random) -> Stores {
    let mut schema = schemas::any(random);
    disorder_rows(random, &mut schema);
    let mut kept = closure::afresh(&schema);
    disorder_kept(random, &mut kept);
    Stores::holding(&Tables { schema, kept })
}

/// Spoils some rows, or none.
pub fn disorder_rows(random: &mut Random, schema: &mut Schema) {
    if random.once_in(6) {
        return spoil::inheritances(random, schema);
    }
    let times = match random.below(3) {
        0 => random.below(6),
        _ => 1,
    };
    for _ in 0..times {
        spoil::any_row(random, schema);
    }
    if random.once_in(3) {
        disorder_superclasses(random, schema);
    }
}

/// Gives some of the first classes any superclass, so that chains go astray.
fn disorder_superclasses(random: &mut Random, schema: &mut Schema) {
    let count = schema.classes.len();
    for class in schema.classes.iter_mut().take(6) {
        match random.below(5) {
            0 => class.superclass = random.below(count) as u16,
            1 => class.superclass = random.below(CLASS_LIMIT) as u16,
            _ => {}
        }
    }
}

/// Makes some kept sets wrong, or none.
pub fn disorder_kept(random: &mut Random, kept: &mut [Kept]) {
    let seldom = random.within(1..12);
    if random.once_in(4) {
        return;
    }
    for sets in kept {
        if !random.once_in(seldom) {
            continue;
        }
        match random.below(4) {
            0 => *sets = Kept::default(),
            1 => *sets = any_kept(random),
            _ => sets.join(&few_kept(random)),
        }
    }
}

fn numbers(random: &mut Random, count: usize, limit: usize) -> Numbers {
    (0..count).map(|_| random.below(limit) as u16).collect()
}

fn any_kept(random: &mut Random) -> Kept {
    Kept {
        reached: numbers(random, 60, CLASS_LIMIT),
        mandatory: numbers(random, 60, ATTRIBUTE_LIMIT),
        optional: numbers(random, 60, ATTRIBUTE_LIMIT),
    }
}

fn few_kept(random: &mut Random) -> Kept {
    let (one, other, third) = (random.below(3), random.below(2), random.below(3));
    Kept {
        reached: numbers(random, one, 8),
        mandatory: numbers(random, other, 8),
        optional: numbers(random, third, ATTRIBUTE_LIMIT),
    }
}

/// Stores with some bytes that a caller might have written there.
pub fn broken(random: &mut Random) -> Stores {
    let mut stores = match random.once_in(2) {
        true => in_order(random),
        false => out_of_order(random),
    };
    for _ in 0..random.within(1..5) {
        let bytes = &mut stores.0[random.below(LENGTHS.len())];
        let place = likely_place(random, bytes.len());
        bytes[place] = random.byte();
    }
    stores
}

/// A place in a store, mostly near its start.
pub fn likely_place(random: &mut Random, length: usize) -> usize {
    match random.below(3) {
        0 => random.below(length),
        1 => random.below(length.min(4)),
        _ => random.below(length.min(1500)),
    }
}

/// Stores of any kind, shorter and longer ones too.
pub fn any(random: &mut Random) -> Stores {
    let mut stores = match random.below(10) {
        0..=3 => in_order(random),
        4..=7 => out_of_order(random),
        _ => broken(random),
    };
    if random.once_in(8) {
        resize_any(random, &mut stores);
    }
    stores
}

fn resize_any(random: &mut Random, stores: &mut Stores) {
    let store = random.below(LENGTHS.len());
    let exact = LENGTHS[store];
    let lengths = [0, exact - 1, exact, exact + 1, exact / 2, exact + 100];
    let length = random.pick(&lengths).copied().unwrap_or(exact);
    stores.0[store].resize(length, PAST);
}
