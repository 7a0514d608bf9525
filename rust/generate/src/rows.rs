//! Rows that can stand beside the rows of a schema without breaking a rule.

use crate::random::Random;
use reference::rules::is_live;
use reference::schema::{
    Attribute, BASE_FLAG, Category, Class, Common, NAME_LIMIT, Numbers, Row, Schema,
};
use reference::syntax::{OBJECT, object_classes, om_syntaxes};

const LETTERS: &[u8] = b"abcdefghijklmnopqrstuvwxyzABCDEFGHIJKLMNOPQRSTUVWXYZ";
const FOLLOWERS: &[u8] = b"abcdefghijklmnopqrstuvwxyzABCDEFGHIJKLMNOPQRSTUVWXYZ0123456789-";

/// A valid name, taken or not.
pub fn name(random: &mut Random) -> Vec<u8> {
    let length = match random.below(20) {
        0 => 1,
        1 => 64,
        _ => random.within(3..12),
    };
    let first = random.pick(LETTERS).copied().unwrap_or(b'a');
    let mut name = vec![first];
    while name.len() < length {
        name.push(random.pick(FOLLOWERS).copied().unwrap_or(b'-'));
    }
    name
}

/// Makes a row's name longer by so many bytes, if it may be so long. Returns
/// how many bytes it was.
pub fn lengthen_name(random: &mut Random, schema: &mut Schema, row: Row, bytes: usize) -> usize {
    let Some(common) = schema.common_mut(row) else {
        return 0;
    };
    let more = bytes.min(NAME_LIMIT - common.name.len());
    for _ in 0..more {
        let follower = random.pick(FOLLOWERS).copied().unwrap_or(b'-');
        common.name.push(follower);
    }
    more
}

/// A valid name that no row has.
pub fn free_name(random: &mut Random, schema: &Schema) -> Vec<u8> {
    loop {
        let name = name(random);
        if !commons(schema).any(|row| row.name.eq_ignore_ascii_case(&name)) {
            return name;
        }
    }
}

/// What every row has, of all rows.
pub fn commons(schema: &Schema) -> impl Iterator<Item = &Common> {
    schema.rows().filter_map(|row| schema.common(row))
}

fn arcs(random: &mut Random) -> Vec<u32> {
    let first = random.below(3) as u32;
    let second = match first {
        2 => random.u32(),
        _ => random.below(40) as u32,
    };
    let length = match random.below(10) {
        0 => 16,
        1 => 2,
        _ => random.within(3..7),
    };
    let mut arcs = vec![first, second];
    while arcs.len() < length {
        arcs.push(random.u32());
    }
    arcs
}

fn free_arcs(random: &mut Random, schema: &Schema) -> Vec<u32> {
    loop {
        let arcs = arcs(random);
        if !commons(schema).any(|row| row.arcs == arcs) {
            return arcs;
        }
    }
}

fn free_guid(random: &mut Random, schema: &Schema) -> u128 {
    loop {
        let guid = match random.below(30) {
            0 => 0,
            _ => u128::from(random.number()) << 64 | u128::from(random.number()),
        };
        if !commons(schema).any(|row| row.guid == guid) {
            return guid;
        }
    }
}

/// What every row has: free, active, not a base row.
pub fn common(random: &mut Random, schema: &Schema) -> Common {
    let flags = match random.below(3) {
        0 => random.number() as u32,
        _ => 0,
    };
    Common {
        name: free_name(random, schema),
        arcs: free_arcs(random, schema),
        guid: free_guid(random, schema),
        system_flags: flags & !BASE_FLAG,
        defunct: false,
    }
}

/// A row of a schema to be loaded: sometimes a base row, sometimes defunct.
pub fn standing_common(random: &mut Random, schema: &Schema) -> Common {
    let mut common = common(random, schema);
    if random.once_in(5) {
        common.system_flags |= BASE_FLAG;
    }
    common.defunct = random.once_in(6);
    common
}

/// An attribute with these common values.
pub fn attribute(random: &mut Random, schema: &Schema, common: Common) -> Attribute {
    let link_id = free_link(random, schema, &common);
    let naming = link_id.is_none() && random.once_in(3);
    let syntax = match naming {
        true => 12,
        false => fitting_syntax(random, link_id),
    };
    let (range_lower, range_upper) = range(random);
    let mut row = Attribute {
        syntax,
        single_valued: naming || random.once_in(2),
        range_lower,
        range_upper,
        link_id,
        mapi_id: free_mapi(random, schema),
        common,
        ..Attribute::default()
    };
    fit_syntax(random, &mut row);
    row
}

/// An attributeSyntax that goes with a linkID: any where there is none, else one
/// of names.
fn fitting_syntax(random: &mut Random, link_id: Option<u32>) -> u8 {
    let any = random.within(1..18) as u8;
    match link_id {
        None => any,
        Some(link) if link % 2 == 0 => random.pick(&[1, 7, 14]).copied().unwrap_or(1),
        Some(_) => 1,
    }
}

/// Ends that a range may have: the last ones, those beside zero, and others.
pub fn range_end(random: &mut Random) -> i32 {
    let any = random.number() as i32;
    let ends = [i32::MIN, -3, -1, 0, 1, 16, i32::MAX - 1, i32::MAX, any];
    random.pick(&ends).copied().unwrap_or(any)
}

/// A range that does not fall, where both ends are present, often of equal ends.
pub fn range(random: &mut Random) -> (Option<i32>, Option<i32>) {
    let (one, other) = (range_end(random), range_end(random));
    let (lower, upper) = (one.min(other), one.max(other));
    match random.below(6) {
        0 => (Some(lower), None),
        1 => (None, Some(upper)),
        2 => (Some(one), Some(one)),
        3 | 4 => (Some(lower), Some(upper)),
        _ => (None, None),
    }
}

fn free_mapi(random: &mut Random, schema: &Schema) -> Option<u32> {
    let free = Some(random.u32()).filter(|number| *number != 0);
    let taken = schema.attributes.iter().any(|row| row.mapi_id == free);
    free.filter(|_| !taken)
}

/// Gives an attribute an oMSyntax and an oMObjectClass that go with its syntax.
pub fn fit_syntax(random: &mut Random, row: &mut Attribute) {
    let om_syntaxes = om_syntaxes(row.syntax);
    row.om_syntax = random.pick(om_syntaxes).copied().unwrap_or(OBJECT);
    let object_class = random.pick(object_classes(row.syntax)).copied();
    row.om_object_class = object_class.unwrap_or_default().to_vec();
}

fn link_taken(schema: &Schema, link: u32) -> bool {
    schema
        .attributes
        .iter()
        .any(|row| row.link_id == Some(link))
}

/// No link, a forward link, or the back link of a live forward link.
pub fn free_link(random: &mut Random, schema: &Schema, own: &Common) -> Option<u32> {
    let free = |link: &u32| !link_taken(schema, *link);
    match random.below(6) {
        0 => Some(random.u32() & !1)
            .filter(|link| *link != 0)
            .filter(free),
        1 | 2 => {
            let live = |row: &&Attribute| is_live(Some(&row.common), own);
            let links = schema.attributes.iter().filter(live);
            let even = links
                .filter_map(|row| row.link_id)
                .filter(|link| link % 2 == 0);
            let backs: Vec<u32> = even.map(|link| link + 1).filter(free).collect();
            random.pick(&backs).copied()
        }
        _ => None,
    }
}

/// A class with these common values, no lists yet, that can be the next row. A
/// row that no active class can stand above is defunct too.
pub fn class(random: &mut Random, schema: &Schema, common: Common) -> Class {
    let own = &common;
    let live = |number: &u16| {
        let above = schema.class(*number).map(|class| &class.common);
        is_live(above, own)
    };
    let above: Vec<u16> = (0..schema.next_class()).filter(live).collect();
    let superclass = match random.below(4) {
        0 => above.first().copied(),
        _ => random.pick(&above).copied(),
    };
    let category = category_under(random, schema, superclass);
    let defunct = common.defunct || superclass.is_none() && !schema.classes.is_empty();
    Class {
        common: Common { defunct, ..common },
        category,
        superclass: superclass.unwrap_or(0),
        ..Class::default()
    }
}

fn category_under(random: &mut Random, schema: &Schema, superclass: Option<u16>) -> Category {
    use Category::{Abstract, Auxiliary, EightyEight, Structural};
    let above = superclass.and_then(|number| schema.class(number));
    let legal: &[Category] = match above.map(|class| class.category) {
        None => &[Abstract],
        Some(Abstract) => &[EightyEight, Structural, Abstract, Auxiliary, Auxiliary],
        Some(EightyEight) => &[EightyEight, Structural, Auxiliary],
        Some(Structural) => &[EightyEight, Structural, Structural],
        Some(Auxiliary) => &[EightyEight, Auxiliary, Auxiliary],
    };
    random.pick(legal).copied().unwrap_or_default()
}

/// Fills a class's lists with live entries of the right categories, at most so
/// many in each. A class that is to be added has no row yet, so it does not
/// list itself.
pub fn fill_lists(random: &mut Random, schema: &Schema, class: &mut Class, most: usize) {
    let attributes = live_attributes(schema, &class.common);
    let suited = |number: &u16| {
        let attribute = schema.attribute(*number);
        attribute.is_some_and(|row| row.syntax == 12 && row.single_valued)
    };
    let naming: Vec<u16> = attributes.iter().copied().filter(suited).collect();
    if random.once_in(2) {
        class.naming = random.pick(&naming).copied();
    }
    class.mandatory = match random.below(3) {
        0 => some(random, &attributes[..attributes.len().min(6)], most),
        _ => Numbers::new(),
    };
    class.fixed_optional = some(random, &attributes, most);
    class.open_optional = some(random, &attributes, most);
    let auxiliaries = live_auxiliaries(schema, &class.common);
    class.fixed_auxiliary = some(random, &auxiliaries, most / 2);
    class.open_auxiliary = some(random, &auxiliaries, most / 2);
    let superiors = live_superiors(schema, &class.common);
    class.fixed_superiors = some(random, &superiors, most / 2);
    class.open_superiors = some(random, &superiors, most / 2);
}

/// Some of the entries, at most so many.
fn some(random: &mut Random, entries: &[u16], most: usize) -> Numbers {
    let count = random.below(most + 1);
    let picked = (0..count).filter_map(|_| random.pick(entries).copied());
    picked.collect()
}

/// The attributes that are live for a naming row.
pub fn live_attributes(schema: &Schema, naming: &Common) -> Vec<u16> {
    let live = |number: &u16| {
        let named = schema.attribute(*number).map(|row| &row.common);
        is_live(named, naming)
    };
    (0..schema.next_attribute()).filter(live).collect()
}

/// The classes that can be auxiliaries of a naming row.
pub fn live_auxiliaries(schema: &Schema, naming: &Common) -> Vec<u16> {
    live_classes(schema, naming, [Category::EightyEight, Category::Auxiliary])
}

/// The classes that can be possible superiors of a naming row.
pub fn live_superiors(schema: &Schema, naming: &Common) -> Vec<u16> {
    live_classes(
        schema,
        naming,
        [Category::EightyEight, Category::Structural],
    )
}

fn live_classes(schema: &Schema, naming: &Common, fitting: [Category; 2]) -> Vec<u16> {
    let fits = |number: &u16| {
        let named = schema.class(*number);
        is_live(named.map(|row| &row.common), naming)
            && named.is_some_and(|row| fitting.contains(&row.category))
    };
    (0..schema.next_class()).filter(fits).collect()
}
