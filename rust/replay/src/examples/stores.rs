//! Numbers 1, 2, 3 and 31, audits of stores not in order, and depth.

use super::base;
use super::record::{Given, PASSED, Record};
use super::rows::{HEADING, Row, alter, rename, sheet};

/// Lengths of the stores, as docs/LAYOUT.md has them.
const LENGTHS: [u32; 3] = [48_386, 40_322, 10_240];

/// Where a byte of an attribute row stands in its store.
fn attribute_byte(row: usize, byte: usize) -> usize {
    2 + 189 * row + byte
}

/// Where a byte of a class row stands in its store.
fn class_byte(row: usize, byte: usize) -> usize {
    2 + 315 * row + byte
}

/// All of them.
pub fn examples(record: &mut Record) {
    shorter(record);
    longer(record);
    written(record);
    attribute_shape(record);
    class_shape(record);
    object_class_shape(record);
    unused(record);
    refused_load(record);
    kept_sets(record);
    rules_audited(record);
    two_rules_audited(record);
    depths(record);
    depths_astray(record);
}

/// "1 a lent store is shorter than its length", for every call, altering
/// nothing; just the length is enough.
fn shorter(record: &mut Record) {
    let rows = [Row::attribute(0), Row::class(0)];
    for (store, length) in (0..).zip(LENGTHS) {
        record.pass(&rows);
        record.resize(store, length);
        record.audit(PASSED);
        record.pass(&rows);
        record.plain(&rename(0x43, 0, b"x"), (0, 1, 0));
        record.resize(store, length - 1);
        record.load(&sheet(&rows), (1, 0, 0));
        record.load(&[], (1, 0, 0));
        record.plain(&[], (1, 0, 0));
        record.audit((1, 0, 0));
        record.write(200, (1, 0, 0));
        record.depth(0, (1, 0, 0));
        record.resize(store, length + 16);
    }
    record.resize(2, 0);
    record.audit((1, 0, 0));
    record.resize(2, LENGTHS[2] + 16);
}

/// "bytes past them are never touched", by an accepted load, a refused one and
/// a change.
fn longer(record: &mut Record) {
    for (store, length) in (0..).zip(LENGTHS) {
        record.poke(store, length as usize, 0x5A);
    }
    record.pass(&[Row::attribute(0), Row::class(0)]);
    record.plain(&Row::class(1).added(), (0, 2, 1));
    record.audit(PASSED);
    record.load(&[], (4, 0, 0));
    record.rows(&[Row::attribute(0).named("")], (12, 1, 0));
    record.audit(PASSED);
}

/// "31 write: output too short; place is the length needed"; else "0 and the
/// length", bytes behind untouched.
fn written(record: &mut Record) {
    record.pass(&[]);
    record.write(3, (31, 0, 4));
    record.write(0, (31, 0, 4));
    record.write(4, (0, 0, 4));
    record.write(5, (0, 0, 4));
    record.pass(&base::all());
    let length = sheet(&base::all()).len() as u64;
    record.write(length as u32 - 1, (31, 0, length));
    record.write(length as u32, (0, 0, length));
    record.write(length as u32 + 100, (0, 0, length));
    let row = Row::attribute(0).syntax(14, 127).defunct().single();
    let full = row.with(0x08, b"\x2A\x86\x48\x86\xF7\x14\x01\x01\x01\x0C");
    let other = Row::attribute(1).range(0, 1).mapi(5);
    let third = Row::attribute(2).number(0x0B, 0).single().linked(0x1_0002);
    let rows = [
        full.range(-1, 0).link(2).mapi(1),
        other,
        third.number(0x0A, u32::MAX),
    ];
    record.pass(&rows);
    record.write(400, (0, 0, sheet(&rows).len() as u64));
}

/// Every call says of these stores that their shape is broken.
fn broken(record: &mut Record) {
    record.audit((2, 0, 0));
    record.plain(&[], (2, 0, 0));
}

/// A byte is poked, the calls answer 2, and it is put back.
fn breaks(record: &mut Record, store: u8, offset: usize, byte: u8) {
    let old = record.poke(store, offset, byte);
    broken(record);
    record.poke(store, offset, old);
}

/// "every field one that the reader could have stored": lengths, padding, flags,
/// and zero where a value is absent.
fn attribute_shape(record: &mut Record) {
    record.pass(&[Row::attribute(0), Row::attribute(1), Row::class(0)]);
    let bytes = [
        (0, 65),
        (0, 72),
        (0, 255),
        (3, 1),
        (64, 1),
        (65, 17),
        (65, 24),
        (78, 1),
        (129, 1),
        (150, 2),
        (150, 255),
        (170, 2),
        (171, 2),
        (176, 2),
        (175, 1),
        (172, 1),
        (180, 1),
        (177, 0x80),
    ];
    for (byte, value) in bytes {
        breaks(record, 0, attribute_byte(0, byte), value);
    }
    breaks(record, 0, attribute_byte(1, 150), 2);
    record.poke(0, attribute_byte(1, 150), 2);
    record.write(0, (2, 0, 0));
    record.write(400, (2, 0, 0));
    record.depth(0, (2, 0, 0));
    record.depth(9, (2, 0, 0));
    record.plain(&rename(0x43, 0, b"x"), (2, 0, 0));
}

/// The same of classes: "Category over 3, a class number of 128" never stored.
fn class_shape(record: &mut Record) {
    record.pass(&[Row::attribute(0), Row::class(0), Row::class(1)]);
    let bytes = [
        (0, 65),
        (3, 1),
        (65, 17),
        (150, 2),
        (151, 4),
        (151, 6),
        (151, 255),
        (152, 128),
        (152, 255),
        (153, 2),
        (154, 1),
    ];
    for (byte, value) in bytes {
        breaks(record, 1, class_byte(1, byte), value);
    }
    record.poke(1, class_byte(1, 152), 127);
    record.audit((18, 2, 1));
    record.poke(1, class_byte(1, 152), 0);
    record.audit(PASSED);
}

/// oMObjectClass beside its syntaxes: none with another oMSyntax than 127; with
/// it some where the syntax has a right one, and any where it has none.
fn object_class_shape(record: &mut Record) {
    record.pass(&[Row::attribute(0), Row::attribute(1).syntax(1, 127)]);
    record.poke(0, attribute_byte(0, 153), 1);
    broken(record);
    record.poke(0, attribute_byte(0, 152), 127);
    record.audit((26, 1, 0));
    record.poke(0, attribute_byte(0, 153), 0);
    record.audit((26, 1, 0));
    record.poke(0, attribute_byte(0, 151), 13);
    broken(record);
    record.poke(0, attribute_byte(0, 153), 2);
    record.audit((27, 1, 0));
    breaks(record, 0, attribute_byte(0, 153), 17);
    breaks(record, 0, attribute_byte(0, 169), 1);
    breaks(record, 0, attribute_byte(1, 152), 64);
}

/// "counts within limits", "unused rows zero", to the last byte of a store.
fn unused(record: &mut Record) {
    record.pass(&[Row::attribute(0), Row::class(0)]);
    for (byte, value) in [(0, 1), (0, 2), (0, 255), (1, 0)] {
        breaks(record, 0, byte, value);
    }
    for (byte, value) in [(0, 129), (0, 255), (0, 0), (1, 1), (1, 2)] {
        breaks(record, 1, byte, value);
    }
    for offset in [attribute_byte(1, 0), attribute_byte(2, 5), 48_385] {
        breaks(record, 0, offset, 1);
    }
    for offset in [class_byte(1, 0), class_byte(2, 5), 40_321] {
        breaks(record, 1, offset, 1);
    }
    record.poke(0, 0, 1);
    record.poke(0, 1, 1);
    broken(record);
    record.poke(0, 1, 2);
    broken(record);
    record.pass(&[Row::class(0)]);
}

/// "Load never looks at what stood in the stores"; "refused by 4 or more, it
/// leaves every store byte zero".
fn refused_load(record: &mut Record) {
    let rows = [Row::attribute(0), Row::class(0)];
    record.pass(&rows);
    record.poke(1, 0, 255);
    record.poke(0, 48_000, 7);
    record.poke(2, 10_239, 7);
    record.pass(&rows);
    record.audit(PASSED);
    record.poke(2, 10_000, 7);
    record.load(&[&HEADING[..], &[0x20]].concat(), (4, 0, 4));
    record.audit(PASSED);
    record.pass(&rows);
    record.poke(0, 40_000, 9);
    record.rows(&[Row::attribute(0).arcs(&[])], (14, 1, 0));
    record.write(10, (0, 0, 4));
}

/// "3 plain change: not in order. Audit: only kept sets are wrong": any of the
/// three sets, a member more or less, and of an unused row.
fn kept_sets(record: &mut Record) {
    record.pass(&base::all());
    let row = 80;
    for (byte, value) in [
        (0, 0),
        (0, 0xFF),
        (15, 1),
        (16, 1),
        (17, 0),
        (47, 0x80),
        (48, 1),
        (49, 0),
        (79, 1),
    ] {
        let old = record.poke(2, row + byte, value);
        record.audit((3, 0, 0));
        record.plain(&[], (3, 0, 0));
        record.plain(&rename(0x43, 8, b"x"), (3, 0, 0));
        record.poke(2, row + byte, old);
    }
    for offset in [80 * 19, 10_239] {
        record.poke(2, offset, 0x80);
        record.audit((3, 0, 0));
        record.plain(&alter(0x45, 8, &[]), (3, 0, 0));
        record.poke(2, offset, 0);
    }
    record.audit(PASSED);
    record.poke(2, 0, 0);
    record.write(4000, (0, 0, sheet(&base::all()).len() as u64));
    record.depth(8, (0, 0, 2));
    record.poke(0, attribute_byte(1, 1), b'1');
    record.audit((12, 1, 1));
    record.plain(&[], (3, 0, 0));
}

/// "Audit gives 12 to 29 by number", with table and lowest row, attributes
/// first, and alters nothing; a plain change says 3.
fn rules_audited(record: &mut Record) {
    record.pass(&base::all());
    let mut audited = |store: u8, offset: usize, byte: u8, given: Given| {
        let old = record.poke(store, offset, byte);
        record.audit(given);
        record.plain(&[], (3, 0, 0));
        record.poke(store, offset, old);
    };
    audited(0, attribute_byte(1, 1), b'1', (12, 1, 1));
    audited(1, class_byte(4, 1), b'1', (12, 2, 4));
    audited(0, attribute_byte(5, 2), b'4', (13, 1, 4));
    audited(1, class_byte(5, 1), b'A', (13, 1, 5));
    audited(0, attribute_byte(6, 69), 3, (14, 1, 6));
    audited(0, attribute_byte(7, 77), 6, (15, 1, 6));
    audited(1, class_byte(3, 145), 2, (16, 2, 2));
    audited(1, class_byte(4, 155), 0x08, (17, 2, 4));
    audited(1, class_byte(8, 152), 8, (18, 2, 8));
    audited(1, class_byte(4, 251), 0x20, (19, 2, 4));
    audited(1, class_byte(4, 283), 0x04, (20, 2, 4));
    audited(1, class_byte(0, 151), 1, (21, 2, 0));
    audited(1, class_byte(8, 151), 2, (38, 2, 8));
    audited(1, class_byte(8, 151), 3, (39, 2, 8));
    audited(1, class_byte(14, 151), 1, (40, 2, 14));
    audited(1, class_byte(1, 154), 1, (23, 2, 1));
    audited(0, attribute_byte(8, 188), 4, (24, 1, 6));
    audited(0, attribute_byte(1, 172), 0x7F, (25, 1, 1));
    audited(0, attribute_byte(8, 152), 20, (26, 1, 8));
    audited(0, attribute_byte(8, 184), 4, (28, 1, 6));
    audited(0, attribute_byte(8, 184), 7, (29, 1, 8));
    audited(0, attribute_byte(8, 184), 8, (45, 1, 8));
    audited(0, attribute_byte(12, 184), 3, (28, 1, 5));
}

/// Two rows that break a rule each: the first rule in the order of judging is
/// told, though a lower row breaks the other.
fn two_rules_audited(record: &mut Record) {
    record.pass(&base::all());
    record.poke(1, class_byte(14, 151), 1);
    record.audit((40, 2, 14));
    record.poke(1, class_byte(17, 151), 2);
    record.audit((38, 2, 17));
    record.plain(&[], (3, 0, 0));
    record.pass(&base::all());
    record.poke(0, attribute_byte(8, 184), 8);
    record.audit((45, 1, 8));
    record.poke(0, attribute_byte(12, 184), 11);
    record.audit((29, 1, 12));
    record.plain(&[], (3, 0, 0));
}

/// "the place is the number of steps, 0 for row 0"; 5 for rows not there.
fn depths(record: &mut Record) {
    let class = |number, above| Row::class(number).under(above).category(0);
    record.pass(&[
        Row::class(0),
        class(1, 0),
        class(2, 1),
        class(3, 1),
        class(4, 2).defunct(),
    ]);
    for (number, steps) in [(0, 0), (1, 1), (2, 2), (3, 2), (4, 3)] {
        record.depth(number, (0, 0, steps));
    }
    for number in [5, 127, 128, 255, 256, 260, 65535] {
        record.depth(number, (5, 0, 0));
    }
    record.pass(&[]);
    record.depth(0, (5, 0, 0));
}

/// "18 where a superclass met is not earlier": at the class or above it; the
/// walk ends at row 0, whatever superclass it has.
fn depths_astray(record: &mut Record) {
    let class = |number, above| Row::class(number).under(above);
    record.pass(&[Row::class(0), class(1, 0), class(2, 1), class(3, 2)]);
    for (row, above) in [
        (1, 1),
        (1, 2),
        (1, 3),
        (1, 127),
        (2, 2),
        (2, 3),
        (3, 3),
        (3, 100),
    ] {
        let old = record.poke(1, class_byte(row, 152), above);
        for number in 0..4 {
            let astray = usize::from(number) >= row;
            let given = if astray {
                (18, 0, 0)
            } else {
                (0, 0, number.into())
            };
            record.depth(number, given);
        }
        record.poke(1, class_byte(row, 152), old);
    }
    record.poke(1, class_byte(0, 152), 3);
    record.depth(0, PASSED);
    record.depth(3, (0, 0, 3));
}
