//! What the stored scripts leave out: a case by itself that they have among
//! others, its neighbours, and tables in full, too many for the gate to play.

use super::named::attributes_wrong;
use super::record::{PASSED, Record};
use super::rows::{Row, alter, entry, field, rename, sheet};
use super::values::PAIRS;

/// All of them.
pub fn examples(record: &mut Record) {
    identities(record);
    every_syntax(record);
    order_of_rules(record);
    every_cut(record);
    first_of_two(record);
    attributes_needed(record);
    classes_needed(record);
    last_links(record);
    own_numbers(record);
    shorter(record);
    zeros(record);
}

/// One arc, whichever; a GUID of zeros that no other row has.
fn identities(record: &mut Record) {
    let row = |arcs: &[u32]| Row::attribute(0).arcs(arcs);
    for wrong in [&[0][..], &[1], &[3, 0]] {
        record.both(&[row(wrong)], 0, (14, 1, 0));
    }
    record.pass(&[row(&[2, 0])]);
    record.pass(&[row(&[1, 39, 0])]);
    record.pass(&[Row::attribute(0).guid(0)]);
}

/// Rule 26, as document 01 writes it.
const MATCHES: &str = "1:127, 2:6, 3:27, 4:20, 5:19 or 22, 6:18, 7:127, 8:1, 9:2 or 10, 10:4, \
                       11:23 or 24, 12:64, 13:127, 14:127, 15:66, 16:65, 17:4";

/// Whether the sentence has this pair.
fn is_match(syntax: u8, om_syntax: u8) -> bool {
    let mut pairs = MATCHES.split(", ").filter_map(|pair| pair.split_once(':'));
    pairs.any(|(number, others)| {
        let mut others = others.split(" or ");
        number == syntax.to_string() && others.any(|other| other == om_syntax.to_string())
    })
}

/// Every pair of syntaxes; linkID 1 is 29 with each that is right.
fn every_syntax(record: &mut Record) {
    for syntax in 0..=19 {
        for om_syntax in 0..=255 {
            let given = match is_match(syntax, om_syntax) {
                true => PASSED,
                false => (26, 1, 0),
            };
            record.rows(&[Row::attribute(0).syntax(syntax, om_syntax)], given);
        }
    }
    for (syntax, om_syntax) in PAIRS {
        let row = Row::attribute(0).syntax(syntax, om_syntax).link(1);
        record.both(&[row], 0, (29, 1, 0));
    }
}

/// Rows that break 23, then 24 to 29, then 45: where those that break the first
/// are gone the next is told.
fn order_of_rules(record: &mut Record) {
    let (all, class) = (attributes_wrong(), Row::class);
    let named = [class(0), class(1).naming(2)];
    record.rows(&[&all[..], &named].concat(), (23, 2, 1));
    let told = [
        (0, (24, 1, 0)),
        (1, (25, 1, 1)),
        (3, (26, 1, 0)),
        (4, (27, 1, 0)),
        (5, (28, 1, 0)),
        (6, (29, 1, 1)),
        (8, (45, 1, 0)),
    ];
    for (gone, given) in told {
        record.rows(&all[gone..], given);
    }
    let wrong = Row::attribute(0).syntax(12, 65);
    let classes = [class(1).set(0x13, &[9]), class(2).category(2).under(1)];
    record.rows(&[&[wrong, class(0)], &classes[..]].concat(), (17, 2, 1));
}

/// A row cut anywhere is told by its tag, whatever is in it; a change by its own.
fn every_cut(record: &mut Record) {
    for row in [Row::attribute(0), Row::attribute(0).with(0x01, &[b'a'; 65])] {
        let whole = sheet(&[row]);
        for cut in 5..whole.len() {
            record.load(&whole[..cut], (4, 0, 4));
        }
    }
    record.pass(&[Row::attribute(0)]);
    let whole = rename(0x43, 0, b"name");
    for cut in 0..whole.len() {
        record.plain(&whole[..cut], (4, 0, 0));
    }
}

/// A 4 before a later 6, inside a row and at its end; the first field doubled;
/// lists that no change names.
fn first_of_two(record: &mut Record) {
    let row = Row::attribute;
    let rows: Vec<Row> = (0..257).map(row).collect();
    let length = |rows: &[Row]| 4 + rows.iter().map(Row::length).sum::<u64>();
    let mut wrong = rows.clone();
    wrong[3] = row(3).flags(0).with(0x04, &[0; 3]);
    let before: u64 = (1..4).map(|tag| row(3).field_length(tag)).sum();
    record.load(&sheet(&wrong), (4, 0, length(&rows[..3]) + 3 + before));
    let mut short = rows;
    short[255] = row(255).without(0x07);
    record.load(&sheet(&short), (4, 0, length(&short[..256])));
    let doubled = [field(0x01, b"name"), row(0).value()].concat();
    let doubled = [sheet(&[]), field(0x20, &doubled)].concat();
    record.load(&doubled, (4, 0, 4 + 3 + 7));
    record.pass(&[row(0), Row::class(0)]);
    for list in [0x11, 0x12, 0x1A] {
        record.plain(&entry(0x49, 0, list, 0), (4, 0, 8));
    }
}

/// 11 for an attribute: each list by itself, and rDNAttID; defunct classes name
/// nothing.
fn attributes_needed(record: &mut Record) {
    let named = [0x13, 0x14, 0x15].map(|tag| Row::class(1).set(tag, &[0]));
    for class in named.into_iter().chain([Row::class(1).naming(0)]) {
        let rows = |class| [Row::attribute(0).single(), Row::class(0), class];
        record.pass(&rows(class.clone()));
        record.refused(&alter(0x45, 0, &[]), 11);
        record.pass(&rows(class.defunct()));
        record.plain(&alter(0x45, 0, &[]), (0, 1, 0));
    }
}

/// 11 for a class: each list by itself, own entries aside, and the superclass.
fn classes_needed(record: &mut Record) {
    let class = |number| Row::class(number).category(0);
    for tag in 0x16..=0x19 {
        record.pass(&[Row::class(0), class(1), class(2).set(tag, &[1, 2])]);
        record.refused(&alter(0x46, 1, &[]), 11);
        record.refused(&alter(0x46, 0, &[]), 11);
        for gone in [2, 1, 0] {
            record.plain(&alter(0x46, gone, &[]), (0, 2, gone.into()));
        }
        record.refused(&alter(0x48, 2, &[]), 18);
    }
}

/// The last linkID is a back link, and no number is one more.
fn last_links(record: &mut Record) {
    let row = |number, link| Row::attribute(number).linked(link);
    record.pass(&[row(0, u32::MAX), row(1, u32::MAX - 1)]);
    record.refused(&alter(0x45, 1, &[]), 11);
    record.plain(&alter(0x45, 0, &[]), (0, 1, 0));
    record.plain(&alter(0x45, 1, &[]), (0, 1, 1));
    record.refused(&alter(0x47, 0, &[]), 29);
}

/// A reactivated class may list itself, in each list, and an active one add
/// itself to the open ones.
fn own_numbers(record: &mut Record) {
    let class = Row::class(1).category(0);
    for tag in 0x16..=0x19 {
        record.pass(&[Row::class(0), class.clone().set(tag, &[1]).defunct()]);
        record.plain(&alter(0x48, 1, &[]), (0, 2, 1));
    }
    record.pass(&[Row::class(0), class]);
    record.plain(&entry(0x49, 1, 0x17, 1), (0, 2, 1));
    record.plain(&entry(0x49, 1, 0x19, 1), (0, 2, 1));
}

/// 1 by the quick call, for each store; 4 where only a kept set is wrong.
fn shorter(record: &mut Record) {
    record.pass(&[Row::attribute(0), Row::class(0), Row::class(1)]);
    for (store, length) in (0..).zip([48_386, 40_322, 10_240]) {
        record.resize(store, length - 1);
        record.quick(&[], (1, 0, 0));
        record.resize(store, length + 16);
    }
    record.pass(&[Row::attribute(0), Row::class(0), Row::class(1)]);
    for offset in [0, 80, 160, 10_239] {
        let old = record.poke(2, offset, 0x80);
        record.plain(&[], (3, 0, 0));
        record.quick(&[], (4, 0, 0));
        record.poke(2, offset, old);
    }
}

/// A row of zeros that is counted is in shape; it has no name.
fn zeros(record: &mut Record) {
    let rows = [Row::attribute(0), Row::attribute(1), Row::class(0)];
    record.pass(&rows);
    record.poke(0, 1, 3);
    record.audit((12, 1, 2));
    record.pass(&rows);
    record.poke(1, 0, 2);
    record.audit((12, 2, 1));
}
