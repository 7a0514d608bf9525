//! Changes: mostly ones that might be accepted.

use crate::damage::damaged;
use crate::random::Random;
use crate::{rows, sheets, spoil};
use reference::changes::{Alteration, Change};
use reference::schema::{BASE_FLAG, Class, Common, OpenList, Row, Schema};
use reference::writing::{attribute_value, class_value, field};

/// A change's bytes: mostly plausible, sometimes damaged, seldom noise.
pub fn any(random: &mut Random, schema: &Schema) -> Vec<u8> {
    let change = bytes(&plausible(random, schema));
    match random.below(25) {
        0 => sheets::noise(random),
        1 | 2 => damaged(random, &change),
        _ => change,
    }
}

/// A change of any kind to the rows of a schema.
pub fn plausible(random: &mut Random, schema: &Schema) -> Change {
    match random.below(16) {
        0 | 1 => add_attribute(random, schema),
        2 | 3 => add_class(random, schema),
        4 => range(random, schema),
        5 | 6 => rename(random, schema),
        7 | 8 => deactivate(random, schema),
        9 | 10 => reactivate(random, schema),
        11..=13 => add_entry(random, schema),
        _ => remove_entry(random, schema),
    }
}

fn added_common(random: &mut Random, schema: &Schema) -> Common {
    let mut common = rows::common(random, schema);
    if random.once_in(12) {
        common.system_flags |= BASE_FLAG;
    }
    common
}

fn add_attribute(random: &mut Random, schema: &Schema) -> Change {
    let common = added_common(random, schema);
    let mut attribute = rows::attribute(random, schema, common);
    if random.once_in(2) {
        spoil::attribute(random, schema, &mut attribute);
        attribute.common.defunct = random.once_in(30);
    }
    Change::AddAttribute(attribute)
}

fn add_class(random: &mut Random, schema: &Schema) -> Change {
    let common = added_common(random, schema);
    let mut class = rows::class(random, schema, common);
    if !random.once_in(3) {
        rows::fill_lists(random, schema, &mut class, 3);
    }
    if schema.classes.is_empty() && !random.once_in(3) {
        spoil::root(random, &mut class);
    } else if random.once_in(2) {
        spoil::class(random, schema, schema.next_class(), &mut class);
    }
    class.common.defunct &= random.once_in(10);
    Change::AddClass(class)
}

fn any_number(random: &mut Random, rows: usize) -> u16 {
    match random.below(25) {
        0 => random.number() as u16,
        1 => rows as u16,
        _ => random.below(rows) as u16,
    }
}

fn any_attribute(random: &mut Random, schema: &Schema) -> Row {
    Row::Attribute(any_number(random, schema.attributes.len()))
}

fn any_class(random: &mut Random, schema: &Schema) -> Row {
    Row::Class(any_number(random, schema.classes.len()))
}

fn any_row(random: &mut Random, schema: &Schema) -> Row {
    match random.once_in(2) {
        true => any_attribute(random, schema),
        false => any_class(random, schema),
    }
}

fn range(random: &mut Random, schema: &Schema) -> Change {
    let (lower, upper) = match random.below(4) {
        0 => (Some(rows::range_end(random)), Some(rows::range_end(random))),
        _ => rows::range(random),
    };
    Change::Alter {
        target: any_attribute(random, schema),
        alteration: Alteration::Range { lower, upper },
    }
}

fn rename(random: &mut Random, schema: &Schema) -> Change {
    let target = any_row(random, schema);
    let all: Vec<Row> = schema.rows().collect();
    let rival = random.pick(&all).copied().unwrap_or(target);
    let name_of = |row| {
        schema
            .common(row)
            .map_or(Vec::new(), |row| row.name.clone())
    };
    let name = match random.below(7) {
        0 => name_of(target),
        1 => spoil::other_case(random, &name_of(target)),
        2 => spoil::other_case(random, &name_of(rival)),
        3 => spoil::invalid_name(random),
        _ => rows::free_name(random, schema),
    };
    Change::Alter {
        target,
        alteration: Alteration::Name(name),
    }
}

fn deactivate(random: &mut Random, schema: &Schema) -> Change {
    Change::Alter {
        target: any_row(random, schema),
        alteration: Alteration::Deactivate,
    }
}

/// Mostly of a defunct row.
fn reactivate(random: &mut Random, schema: &Schema) -> Change {
    let is_defunct = |row: &Row| schema.common(*row).is_some_and(|common| common.defunct);
    let defunct: Vec<Row> = schema.rows().filter(is_defunct).collect();
    let target = match random.below(6) {
        0 => None,
        _ => random.pick(&defunct).copied(),
    };
    Change::Alter {
        target: target.unwrap_or_else(|| any_row(random, schema)),
        alteration: Alteration::Reactivate,
    }
}

fn any_list(random: &mut Random) -> OpenList {
    match random.below(4) {
        0 => OpenList::Optional,
        1 => OpenList::PossibleSuperiors,
        _ => OpenList::Auxiliary,
    }
}

fn add_entry(random: &mut Random, schema: &Schema) -> Change {
    let target = any_class(random, schema);
    let list = any_list(random);
    let fitting = match schema.class(target.number()) {
        Some(class) => fitting_entries(schema, class, list),
        None => Vec::new(),
    };
    let rows = match list {
        OpenList::Optional => schema.attributes.len(),
        _ => schema.classes.len(),
    };
    let entry = match random.below(5) {
        0 => None,
        _ => random.pick(&fitting).copied(),
    };
    let entry = entry.unwrap_or_else(|| any_number(random, rows));
    Change::Alter {
        target,
        alteration: Alteration::AddEntry { list, entry },
    }
}

fn fitting_entries(schema: &Schema, class: &Class, list: OpenList) -> Vec<u16> {
    match list {
        OpenList::Optional => rows::live_attributes(schema, &class.common),
        OpenList::Auxiliary => rows::live_auxiliaries(schema, &class.common),
        OpenList::PossibleSuperiors => rows::live_superiors(schema, &class.common),
    }
}

/// Mostly of an entry that is there.
fn remove_entry(random: &mut Random, schema: &Schema) -> Change {
    let list = any_list(random);
    let entries_of = |number: u16| {
        let entries = schema.class(number).map(|class| class.open(list).iter());
        entries
            .into_iter()
            .flatten()
            .map(move |entry| (number, *entry))
    };
    let there: Vec<(u16, u16)> = (0..schema.next_class()).flat_map(entries_of).collect();
    let (number, entry) = match random.below(8) {
        0 => None,
        _ => random.pick(&there).copied(),
    }
    .unwrap_or_else(|| {
        let number = any_class(random, schema).number();
        (number, any_number(random, schema.attributes.len()))
    });
    Change::Alter {
        target: Row::Class(number),
        alteration: Alteration::RemoveEntry { list, entry },
    }
}

/// A change as one field.
pub fn bytes(change: &Change) -> Vec<u8> {
    match change {
        Change::AddAttribute(attribute) => field(0x40, &attribute_value(attribute)),
        Change::AddClass(class) => field(0x41, &class_value(class)),
        Change::Alter { target, alteration } => {
            let number = field(0x20, &target.number().to_be_bytes());
            let (tag, others) = alteration_fields(*target, alteration);
            field(tag, &[number, others].concat())
        }
    }
}

fn alteration_fields(target: Row, alteration: &Alteration) -> (u8, Vec<u8>) {
    let by_table = |attribute: u8, class: u8| match target {
        Row::Attribute(_) => attribute,
        Row::Class(_) => class,
    };
    match alteration {
        Alteration::Range { lower, upper } => {
            let lower = lower.map(|end| field(0x0A, &end.to_be_bytes()));
            let upper = upper.map(|end| field(0x0B, &end.to_be_bytes()));
            (
                0x42,
                [lower, upper].into_iter().flatten().flatten().collect(),
            )
        }
        Alteration::Name(name) => (by_table(0x43, 0x44), field(0x01, name)),
        Alteration::Deactivate => (by_table(0x45, 0x46), Vec::new()),
        Alteration::Reactivate => (by_table(0x47, 0x48), Vec::new()),
        Alteration::AddEntry { list, entry } => (0x49, entry_fields(*list, *entry)),
        Alteration::RemoveEntry { list, entry } => (0x4A, entry_fields(*list, *entry)),
    }
}

fn entry_fields(list: OpenList, entry: u16) -> Vec<u8> {
    let tag = match list {
        OpenList::Optional => 0x15,
        OpenList::Auxiliary => 0x17,
        OpenList::PossibleSuperiors => 0x19,
    };
    [field(0x21, &[tag]), field(0x22, &entry.to_be_bytes())].concat()
}
