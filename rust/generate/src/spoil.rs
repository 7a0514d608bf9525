//! Rows with a fault that one of the schema rules tells. Every value stays one
//! that the reader could have stored.

use crate::random::Random;
use crate::rows;
use reference::rules::is_live;
use reference::schema::{
    ATTRIBUTE_LIMIT, Attribute, BASE_FLAG, CLASS_LIMIT, Category, Class, Common, Numbers, Row,
    Schema,
};
use reference::syntax::{OBJECT, stored_object_class};

/// Spoils a row of a schema, so that a load or an audit may refuse it.
pub fn any_row(random: &mut Random, schema: &mut Schema) {
    let all: Vec<Row> = schema.rows().collect();
    match random.pick(&all) {
        Some(Row::Attribute(number)) => {
            let mut row = schema.attributes[usize::from(*number)].clone();
            attribute(random, schema, &mut row);
            schema.attributes[usize::from(*number)] = row;
        }
        Some(Row::Class(number)) => {
            let mut row = schema.classes[usize::from(*number)].clone();
            class(random, schema, *number, &mut row);
            schema.classes[usize::from(*number)] = row;
        }
        None => {}
    }
}

fn common(random: &mut Random, schema: &Schema, row: &mut Common) {
    let all: Vec<&Common> = rows::commons(schema).collect();
    let rival = random.pick(&all).copied();
    match random.below(7) {
        0 => row.name = invalid_name(random),
        1 => row.name = rival.map_or(Vec::new(), |rival| other_case(random, &rival.name)),
        2 => row.arcs = invalid_arcs(random),
        3 => row.arcs = rival.map_or(Vec::new(), |rival| rival.arcs.clone()),
        4 => row.guid = rival.map_or(0, |rival| rival.guid),
        5 => row.system_flags ^= BASE_FLAG,
        _ => row.defunct = !row.defunct,
    }
}

/// A name that is not a letter, then letters, digits or hyphens.
pub fn invalid_name(random: &mut Random) -> Vec<u8> {
    let mut name = rows::name(random);
    let wrong = random.pick(b"_ .\x00\xC3\xFF@[`{/:").copied();
    let place = random.below(name.len());
    match random.below(4) {
        0 => name.clear(),
        1 => name[0] = b'1',
        2 => name[0] = b'-',
        _ => name[place] = wrong.unwrap_or(b'_'),
    }
    name
}

/// The same name with some letters in the other case.
pub fn other_case(random: &mut Random, name: &[u8]) -> Vec<u8> {
    let mut changed = name.to_vec();
    for byte in &mut changed {
        if byte.is_ascii_alphabetic() && random.once_in(2) {
            *byte ^= 0x20;
        }
    }
    changed
}

fn invalid_arcs(random: &mut Random) -> Vec<u32> {
    let small = random.below(2) as u32;
    match random.below(5) {
        0 => vec![],
        1 => vec![random.u32()],
        2 => vec![3, random.u32()],
        3 => vec![small, 40],
        _ => vec![small, 40 + random.u32() / 2, 7],
    }
}

/// Spoils an attribute row.
pub fn attribute(random: &mut Random, schema: &Schema, row: &mut Attribute) {
    match random.below(14) {
        0..=4 => common(random, schema, &mut row.common),
        5 => row.mapi_id = taken(random, schema, |rival| rival.mapi_id),
        6 => wrong_range(random, row),
        7 => row.om_syntax = random.byte(),
        8 => row.syntax = random.within(0..20) as u8,
        9 => wrong_object_class(random, row),
        10 => row.link_id = taken(random, schema, |rival| rival.link_id),
        11 => row.link_id = Some(random.u32() | 1),
        _ => wrong_link(random, schema, row),
    }
    let given = Some(row.om_object_class.as_slice()).filter(|given| !given.is_empty());
    row.om_object_class = stored_object_class(row.syntax, row.om_syntax, given);
}

/// A number that some attribute has, if one has any.
fn taken(
    random: &mut Random,
    schema: &Schema,
    number: fn(&Attribute) -> Option<u32>,
) -> Option<u32> {
    let numbers: Vec<u32> = schema.attributes.iter().filter_map(number).collect();
    random.pick(&numbers).copied()
}

/// A range that falls, often by 1, seldom one of equal ends.
fn wrong_range(random: &mut Random, row: &mut Attribute) {
    let (one, other) = (rows::range_end(random), rows::range_end(random));
    let upper = one.min(other);
    row.range_lower = match random.once_in(2) {
        true => Some(upper.saturating_add(1)),
        false => Some(one.max(other)),
    };
    row.range_upper = Some(upper);
}

/// A linked attribute of any syntax, which fits it seldom.
fn wrong_link(random: &mut Random, schema: &Schema, row: &mut Attribute) {
    if row.link_id.is_none() {
        row.link_id = rows::free_link(random, schema, &row.common);
    }
    row.syntax = match random.once_in(3) {
        true => random.pick(&[7, 14, 13]).copied().unwrap_or(7),
        false => random.within(1..18) as u8,
    };
    rows::fit_syntax(random, row);
}

fn wrong_object_class(random: &mut Random, row: &mut Attribute) {
    let syntaxes = [1, 7, 13, 14];
    row.syntax = random.pick(&syntaxes).copied().unwrap_or(1);
    row.om_syntax = OBJECT;
    let length = random.within(1..17);
    row.om_object_class = random.bytes(length);
}

/// Spoils a class row that has this number, or will have it.
pub fn class(random: &mut Random, schema: &Schema, number: u16, row: &mut Class) {
    match random.below(16) {
        0..=3 => common(random, schema, &mut row.common),
        4 => row.naming = Some(random.below(ATTRIBUTE_LIMIT) as u16),
        5 => row.naming = Some(random.below(schema.attributes.len()) as u16),
        6 => any_attribute_list(random, row, ATTRIBUTE_LIMIT),
        7 => any_attribute_list(random, row, schema.attributes.len().max(1)),
        8 => any_class_list(random, row, CLASS_LIMIT),
        9 | 10 => any_class_list(random, row, schema.classes.len().max(1)),
        11 => add(any_class_set(random, row), number),
        12 => row.superclass = any_superclass(random, schema),
        13 => row.category = any_category(random),
        _ => inheritance(random, schema, number, row),
    }
}

/// Categories that do not go under each other, the own one and the one above,
/// as 38, 39 and 40 have them.
fn misfit(random: &mut Random) -> (Category, Category) {
    use Category::{Abstract, Auxiliary, EightyEight, Structural};
    let kinds = [EightyEight, Structural, Auxiliary];
    let other = random.pick(&kinds).copied().unwrap_or_default();
    let misfits = [
        (Abstract, other),
        (Auxiliary, Structural),
        (Structural, Auxiliary),
    ];
    random.pick(&misfits).copied().unwrap_or_default()
}

/// Puts a class under an earlier one that it does not fit under, if there is
/// one; row 0 gets any category.
fn inheritance(random: &mut Random, schema: &Schema, number: u16, row: &mut Class) {
    let (own, wrong) = misfit(random);
    let fits = |above: &u16| {
        let above = schema.class(*above);
        is_live(above.map(|above| &above.common), &row.common)
            && above.is_some_and(|above| above.category == wrong)
    };
    let above: Vec<u16> = (0..number).filter(fits).collect();
    match random.pick(&above) {
        Some(above) => (row.category, row.superclass) = (own, *above),
        None if number == 0 => root(random, row),
        None => {}
    }
}

/// Gives a class that is to be row 0 any category.
pub fn root(random: &mut Random, row: &mut Class) {
    row.category = any_category(random);
}

/// Puts some classes that no list names under ones that they do not fit under,
/// so that rows break 38 to 40, seldom 21, and no rule that stands before these.
pub fn inheritances(random: &mut Random, schema: &mut Schema) {
    let listed = |schema: &Schema, number| {
        let mut lists = schema.classes.iter().flat_map(Class::listed_classes);
        lists.any(|entry| entry == number)
    };
    let first = u16::from(!random.once_in(5));
    let free: Vec<u16> = (first..schema.next_class())
        .filter(|number| !listed(schema, *number))
        .collect();
    for _ in 0..random.within(1..6) {
        let number = random.pick(&free).copied();
        if let Some((number, mut row)) = number.and_then(|n| Some((n, schema.class(n)?.clone()))) {
            inheritance(random, schema, number, &mut row);
            schema.classes[usize::from(number)] = row;
        }
    }
}

fn any_category(random: &mut Random) -> Category {
    Category::from_number(random.below(4) as u8).unwrap_or_default()
}

fn any_superclass(random: &mut Random, schema: &Schema) -> u16 {
    match random.below(3) {
        0 => random.below(CLASS_LIMIT) as u16,
        _ => random.below(schema.classes.len() + 1).min(CLASS_LIMIT - 1) as u16,
    }
}

fn any_attribute_list(random: &mut Random, row: &mut Class, limit: usize) {
    let entry = random.below(limit) as u16;
    let list = match random.below(3) {
        0 => &mut row.mandatory,
        1 => &mut row.fixed_optional,
        _ => &mut row.open_optional,
    };
    add(list, entry);
}

fn any_class_list(random: &mut Random, row: &mut Class, limit: usize) {
    let entry = random.below(limit) as u16;
    add(any_class_set(random, row), entry);
}

fn any_class_set<'a>(random: &mut Random, row: &'a mut Class) -> &'a mut Numbers {
    match random.below(4) {
        0 => &mut row.fixed_auxiliary,
        1 => &mut row.open_auxiliary,
        2 => &mut row.fixed_superiors,
        _ => &mut row.open_superiors,
    }
}

fn add(list: &mut Numbers, entry: u16) {
    list.insert(entry);
}
