//! Rules 17 to 21, 23 and 38 to 40: the rows that a class names.

use super::record::Record;
use super::rows::Row;

/// The lists that name attributes.
const ATTRIBUTE_SETS: [u8; 3] = [0x13, 0x14, 0x15];
/// The lists that name classes.
const CLASS_SETS: [u8; 4] = [0x16, 0x17, 0x18, 0x19];

/// All of them.
pub fn examples(record: &mut Record) {
    attributes_missing(record);
    attributes_defunct(record);
    classes_missing(record);
    classes_defunct(record);
    superclasses(record);
    own_number(record);
    auxiliaries(record);
    possible_superiors(record);
    row_zero(record);
    categories(record);
    rule_before_row(record);
    before_smaller_numbers(record);
    naming_attributes(record);
}

/// An attribute that can name a class: 2.5.5.12 and single-valued.
fn naming(number: u16) -> Row {
    Row::attribute(number).single()
}

/// A class number that fits a list: an auxiliary or a structural class.
fn fitting(number: u16, list: u8) -> Row {
    let category = if list < 0x18 { 3 } else { 1 };
    Row::class(number).category(category)
}

/// "the named row must exist", for defunct rows too; 255 is the last number
/// that can be read.
fn attributes_missing(record: &mut Record) {
    let (a0, c0) = (Row::attribute(0), Row::class(0));
    for set in ATTRIBUTE_SETS {
        record.both(&[a0.clone(), c0.clone().set(set, &[1])], 1, (17, 2, 0));
        record.both(&[a0.clone(), c0.clone().set(set, &[0, 255])], 1, (17, 2, 0));
        record.pass(&[a0.clone(), c0.clone().set(set, &[0])]);
    }
    record.both(&[naming(0), c0.clone().naming(1)], 1, (17, 2, 0));
    record.both(&[naming(0), c0.clone().naming(255)], 1, (17, 2, 0));
    record.pass(&[naming(0), c0.naming(0)]);
}

/// "and must be active if the naming row is"
fn attributes_defunct(record: &mut Record) {
    let (a0, gone) = (Row::attribute(0), Row::attribute(1).defunct());
    let (c0, c1) = (Row::class(0), Row::class(1));
    for set in ATTRIBUTE_SETS {
        let class = c1.clone().set(set, &[0, 1]);
        record.rows(
            &[a0.clone(), gone.clone(), c0.clone(), class.clone()],
            (17, 2, 1),
        );
        record.pass(&[a0.clone(), gone.clone(), c0.clone(), class.defunct()]);
    }
    let class = c1.naming(0);
    record.rows(
        &[naming(0).defunct(), c0.clone(), class.clone()],
        (17, 2, 1),
    );
    record.pass(&[naming(0).defunct(), c0.clone(), class.clone().defunct()]);
    record.pass(&[naming(0), c0, class.defunct()]);
}

/// The same of classes; 127 is the last number that can be read.
fn classes_missing(record: &mut Record) {
    let (c0, c1) = (Row::class(0), Row::class(1));
    for set in CLASS_SETS {
        record.both(&[c0.clone(), c1.clone().set(set, &[2])], 1, (18, 2, 1));
        let fits = fitting(2, set);
        let class = c1.clone().set(set, &[2, 127]);
        record.both(&[c0.clone(), class, fits.clone()], 1, (18, 2, 1));
        record.pass(&[c0.clone(), c1.clone().set(set, &[2]), fits]);
    }
    record.both(&[c0.clone(), c1.clone().under(2)], 1, (18, 2, 1));
    record.both(&[c0, c1.under(127)], 1, (18, 2, 1));
}

/// The same of defunct classes.
fn classes_defunct(record: &mut Record) {
    let (c0, c1) = (Row::class(0), Row::class(1));
    for set in CLASS_SETS {
        let gone = fitting(2, set).defunct();
        let class = c1.clone().set(set, &[2]);
        record.rows(&[c0.clone(), class.clone(), gone.clone()], (18, 2, 1));
        record.pass(&[c0.clone(), class.clone().defunct(), gone]);
        record.pass(&[c0.clone(), class.defunct(), fitting(2, set)]);
    }
    record.rows(&[c0.clone().defunct(), c1.clone()], (18, 2, 1));
    record.pass(&[c0.clone().defunct(), c1.clone().defunct()]);
    record.pass(&[c0, c1.defunct()]);
}

/// "or a superclass that isn't earlier (for row 0: isn't row 0 ..)"
fn superclasses(record: &mut Record) {
    let class = Row::class;
    record.both(&[class(0), class(1).under(1)], 1, (18, 2, 1));
    record.both(&[class(0), class(1).under(2), class(2)], 1, (18, 2, 1));
    record.both(&[class(0), class(1), class(2).under(2)], 2, (18, 2, 2));
    record.pass(&[class(0), class(1), class(2).under(1)]);
    let abstract_one = class(1).category(2);
    record.both(&[class(0).under(1), abstract_one], 0, (18, 2, 0));
}

/// "No list of an added class may hold its own number; a loaded .. one's may."
fn own_number(record: &mut Record) {
    for set in CLASS_SETS {
        record.pass(&[Row::class(0), fitting(1, set).set(set, &[1])]);
    }
    for set in CLASS_SETS {
        record.refused(&fitting(2, set).set(set, &[2]).added(), 18);
        record.refused(&fitting(2, set).set(set, &[2, 3]).added(), 18);
    }
}

/// Each category as auxiliary, fixed and open, named by active and defunct rows.
fn auxiliaries(record: &mut Record) {
    let (c0, c1) = (Row::class(0), Row::class(1));
    let rows = |set: u8, category| {
        let named = Row::class(2).category(category);
        [c0.clone(), c1.clone().set(set, &[2]), named]
    };
    for set in [0x16, 0x17] {
        record.pass(&rows(set, 0));
        record.both(&rows(set, 1), 1, (19, 2, 1));
        record.both(&rows(set, 2), 1, (19, 2, 1));
        record.pass(&rows(set, 3));
    }
    let last = c1.clone().set(0x16, &[2]).set(0x17, &[3, 4]);
    let fitting = [2, 3].map(|number| Row::class(number).category(3));
    let [two, three] = fitting;
    record.rows(&[c0.clone(), last, two, three, Row::class(4)], (19, 2, 1));
    record.rows(&[c0, c1.set(0x16, &[0])], (19, 2, 1));
}

/// Each category as possible superior.
fn possible_superiors(record: &mut Record) {
    let (c0, c1) = (Row::class(0), Row::class(1));
    let rows = |set: u8, category| {
        let named = Row::class(2).category(category);
        [c0.clone(), c1.clone().set(set, &[2]), named]
    };
    for set in [0x18, 0x19] {
        record.pass(&rows(set, 0));
        record.pass(&rows(set, 1));
        record.both(&rows(set, 2), 1, (20, 2, 1));
        record.both(&rows(set, 3), 1, (20, 2, 1));
    }
    let two = Row::class(2);
    let last = c1.set(0x18, &[2]).set(0x19, &[3]);
    record.rows(&[c0, last, two, Row::class(3).category(3)], (20, 2, 1));
}

/// "21 Row 0 not abstract"
fn row_zero(record: &mut Record) {
    for category in [0, 1, 3] {
        record.both(&[Row::class(0).category(category)], 0, (21, 2, 0));
    }
    record.pass(&[Row::class(0).defunct()]);
}

/// The sixteen pairs: "38 is abstract under another kind, 39 auxiliary under
/// structural, 40 structural under auxiliary" (document 02, wish 3). "All else
/// is legal."
fn categories(record: &mut Record) {
    let number = |own: u8, above: u8| match (own, above) {
        (2, 0 | 1 | 3) => Some(38),
        (3, 1) => Some(39),
        (1, 3) => Some(40),
        _ => None,
    };
    let pairs = (0..4).flat_map(|own| (0..4).map(move |above| (own, above)));
    for (own, above) in pairs {
        let class = Row::class(2).category(own).under(1);
        let rows = [Row::class(0), Row::class(1).category(above), class];
        match number(own, above) {
            Some(number) => record.both(&rows, 2, (number, 2, 2)),
            None => record.pass(&rows),
        }
    }
}

/// Row 0, structural 1 and auxiliary 2, and classes that do not fit: the own
/// category and the class above.
fn misfits(of: &[(u8, u16)]) -> Vec<Row> {
    let first = [Row::class(0), Row::class(1), Row::class(2).category(3)];
    let class =
        |(number, (own, above)): (u16, &(u8, u16))| Row::class(number).category(*own).under(*above);
    let rest = (3..).zip(of).map(class);
    first.into_iter().chain(rest).collect()
}

/// One that breaks 38, 39 and 40 each, as `misfits` takes them.
const ABSTRACT: (u8, u16) = (2, 1);
const AUXILIARY: (u8, u16) = (3, 1);
const STRUCTURAL: (u8, u16) = (1, 2);

/// "in the order given here": the rule is chosen over all rows, then the row.
fn rule_before_row(record: &mut Record) {
    let mut breaks = |of: &[(u8, u16)], given| record.rows(&misfits(of), given);
    breaks(&[STRUCTURAL, (0, 2), ABSTRACT], (38, 2, 5));
    breaks(&[STRUCTURAL, AUXILIARY, ABSTRACT], (38, 2, 5));
    breaks(&[AUXILIARY, (2, 2)], (38, 2, 4));
    breaks(&[STRUCTURAL, AUXILIARY], (39, 2, 4));
    breaks(&[AUXILIARY, STRUCTURAL], (39, 2, 3));
    breaks(&[(1, 1), STRUCTURAL, STRUCTURAL], (40, 2, 4));
    let mut rows = misfits(&[ABSTRACT, AUXILIARY]);
    rows[0] = rows[0].clone().category(1);
    record.rows(&rows, (21, 2, 0));
    // Neither the attributes' table nor a lower class goes before the rule.
    let attributes = [Row::attribute(0), Row::attribute(1).range(6, 5)];
    let classes = misfits(&[STRUCTURAL, (1, 1), (2, 4)]);
    record.rows(&[&attributes[..], &classes].concat(), (38, 2, 5));
}

/// 38 to 40 stand "at 21's place in the order .. though their numbers are
/// higher": behind 18 to 20, before 23 and the attributes' rules.
fn before_smaller_numbers(record: &mut Record) {
    for (of, number) in [(ABSTRACT, 38), (AUXILIARY, 39), (STRUCTURAL, 40)] {
        let wrong = misfits(&[of]);
        let beside = |row: Row| [&wrong[..], &[row]].concat();
        let four = Row::class(4);
        record.rows(&beside(four.clone().under(4)), (18, 2, 4));
        record.rows(&beside(four.clone().set(0x16, &[1])), (19, 2, 4));
        record.rows(&beside(four.clone().set(0x19, &[2])), (20, 2, 4));
        let all = [attributes_wrong(), beside(four.naming(0))].concat();
        record.rows(&all, (number, 2, 3));
    }
    record.rows(&attributes_wrong(), (24, 1, 0));
}

/// Attributes that break 24 to 29, and a linked integer of its own, which breaks
/// 45 alone.
pub fn attributes_wrong() -> Vec<Row> {
    let row = Row::attribute;
    vec![
        row(0).mapi(3),
        row(1).mapi(3),
        row(2).range(2, 1),
        row(3).syntax(9, 65),
        row(4).syntax(1, 127).with(0x08, &[1]),
        row(5).linked(2),
        row(6).linked(2),
        row(7).linked(7),
        row(8).syntax(9, 2).link(4),
    ]
}

/// "23 The naming attribute isn't 2.5.5.12 and single-valued."
fn naming_attributes(record: &mut Record) {
    let class = Row::class(0).naming(0);
    let plain = Row::attribute(0);
    let other = Row::attribute(0).syntax(4, 20);
    record.both(&[plain.clone(), class.clone()], 1, (23, 2, 0));
    record.both(&[other.clone().single(), class.clone()], 1, (23, 2, 0));
    record.both(&[other, class.clone()], 1, (23, 2, 0));
    record.pass(&[plain.clone().single(), class.clone()]);
    record.pass(&[plain.clone().single().defunct(), class.clone().defunct()]);
    record.rows(&[plain.defunct(), class.defunct()], (23, 2, 0));
}
