//! Kept sets byte by byte: what quick changes make of them on stores that are
//! not in order.

use super::record::Record;
use super::rows::{Row, alter, entry, rename};

/// All of them.
pub fn examples(record: &mut Record) {
    begun(record);
    joined(record);
    demanded(record);
    added(record);
    removed(record);
    astray(record);
    superclass_of_row_0(record);
    others(record);
    without_a_row(record);
}

/// Three attributes; row 0; auxiliaries 1 and 2; structural classes 3 and 4,
/// 4 under 3; 3 lists the open optional attribute 0, the open auxiliary 1 and
/// the open possible superior 4.
fn stores(record: &mut Record) {
    let (row, class) = (Row::attribute, Row::class);
    let target = class(3).set(0x15, &[0]).set(0x17, &[1]).set(0x19, &[4]);
    let attributes = [row(0), row(1), row(2), class(0)];
    let auxiliaries = [class(1).category(3), class(2).category(3)];
    let classes = [target, class(4).under(3)];
    record.pass(&[&attributes[..], &auxiliaries, &classes].concat());
}

/// Where the first bytes of a class's kept sets stand: reached, mandatory,
/// optional.
fn sets(class: usize) -> [usize; 3] {
    [0, 16, 48].map(|set| 80 * class + set)
}

fn poke(record: &mut Record, class: usize, kept: [u8; 3]) {
    for (offset, byte) in sets(class).into_iter().zip(kept) {
        record.poke(2, offset, byte);
    }
}

fn kept(record: &mut Record, class: usize, kept: [u8; 3]) {
    for (offset, byte) in sets(class).into_iter().zip(kept) {
        record.holds(2, offset, byte);
    }
}

/// Where a byte of a class row stands in its store.
fn class_byte(row: usize, byte: usize) -> usize {
    2 + 315 * row + byte
}

/// Where a byte of an attribute row stands in its store.
fn attribute_byte(row: usize, byte: usize) -> usize {
    2 + 189 * row + byte
}

/// As a load leaves them.
fn begun(record: &mut Record) {
    stores(record);
    kept(record, 0, [0b1, 0, 0]);
    kept(record, 3, [0b1011, 0, 0b1]);
    kept(record, 4, [0b1_1011, 0, 0b1]);
}

/// An added optional attribute goes where the kept reach holds the target, rows
/// below the count alone; an added auxiliary brings its three sets as they stand.
fn joined(record: &mut Record) {
    stores(record);
    poke(record, 4, [0b1_0011, 0, 0]);
    poke(record, 2, [0b1001, 0b100, 0]);
    poke(record, 7, [0b1000, 0, 0]);
    record.quick(&entry(0x49, 3, 0x15, 1), (0, 2, 3));
    kept(record, 3, [0b1011, 0, 0b11]);
    kept(record, 4, [0b1_0011, 0, 0]);
    kept(record, 2, [0b1001, 0b100, 0b10]);
    kept(record, 7, [0b1000, 0, 0]);
    stores(record);
    poke(record, 2, [0b1000_0000, 0, 0b1100_0000]);
    poke(record, 4, [0, 0, 0]);
    record.quick(&entry(0x49, 3, 0x17, 2), (0, 2, 3));
    kept(record, 3, [0b1000_1011, 0, 0b1100_0001]);
    kept(record, 4, [0, 0, 0]);
    kept(record, 2, [0b1000_0000, 0, 0b1100_0000]);
    // The target itself, whose kept reach lacks it, is left as it is.
    stores(record);
    poke(record, 3, [0, 0, 0]);
    record.quick(&entry(0x49, 3, 0x15, 1), (0, 2, 3));
    kept(record, 3, [0, 0, 0]);
    kept(record, 4, [0b1_1011, 0, 0b11]);
}

/// 30 for an added auxiliary looks at kept sets, for a removal at the rows.
fn demanded(record: &mut Record) {
    stores(record);
    poke(record, 2, [0b101, 0b1000_0000, 0]);
    record.quick(&entry(0x49, 3, 0x17, 2), (30, 0, 0));
    poke(record, 3, [0b1011, 0b1000_0000, 0b1]);
    record.quick(&entry(0x49, 3, 0x17, 2), (0, 2, 3));
    kept(record, 4, [0b1_1111, 0b1000_0000, 0b1]);
    stores(record);
    poke(record, 1, [0b11, 0b1, 0]);
    poke(record, 3, [0b1011, 0b1, 0]);
    record.quick(&entry(0x4A, 3, 0x17, 1), (0, 2, 3));
    stores(record);
    record.poke(1, class_byte(1, 155), 0b10);
    record.quick(&entry(0x4A, 3, 0x17, 1), (30, 0, 0));
    record.poke(1, class_byte(3, 155), 0b10);
    record.quick(&entry(0x4A, 3, 0x17, 1), (0, 2, 3));
}

/// An added class joins the kept sets of superclass and auxiliaries, and row 0,
/// its own superclass, the bytes that stand there.
fn added(record: &mut Record) {
    stores(record);
    poke(record, 3, [0, 0b100, 0b100]);
    poke(record, 2, [0b100_0000, 0b1000, 0b1000]);
    poke(record, 5, [0xFF, 0xFF, 0xFF]);
    let class = Row::class(5).under(3).set(0x13, &[0]).set(0x14, &[1]);
    let class = class.set(0x15, &[0]).set(0x16, &[2]);
    record.quick(&class.added(), (0, 2, 5));
    kept(record, 5, [0b110_0000, 0b1101, 0b1111]);
    kept(record, 3, [0, 0b100, 0b100]);
    record.pass(&[Row::attribute(0)]);
    poke(record, 0, [0b1000, 0b10, 0b100]);
    record.quick(&Row::class(0).set(0x13, &[0]).added(), (0, 2, 0));
    kept(record, 0, [0b1001, 0b11, 0b100]);
}

/// After any removal those whose kept reach held the target are worked out
/// afresh, and no others.
fn removed(record: &mut Record) {
    for (list, removed) in [(0x15, 0), (0x17, 1), (0x19, 4)] {
        stores(record);
        poke(record, 0, [0xFF, 0xFF, 0xFF]);
        poke(record, 1, [0xF0, 0xF0, 0xF0]);
        poke(record, 4, [0b1_1000, 0b1, 0b10]);
        poke(record, 6, [0xFF, 0xFF, 0xFF]);
        record.quick(&entry(0x4A, 3, list, removed), (0, 2, 3));
        let optional = u8::from(list != 0x15);
        let reach = if list == 0x17 { 0b1001 } else { 0b1011 };
        kept(record, 0, [0b1, 0, 0]);
        kept(record, 1, [0xF0, 0xF0, 0xF0]);
        kept(record, 3, [reach, 0, optional]);
        kept(record, 4, [reach | 0b1_0000, 0, optional]);
        kept(record, 6, [0xFF, 0xFF, 0xFF]);
    }
}

/// Class 3 is under 4, itself or no row: sets are joined and worked out afresh
/// over a chain that goes astray all the same (document 02, wish 7).
fn astray(record: &mut Record) {
    for above in [4, 3, 127] {
        stores(record);
        record.poke(1, class_byte(3, 152), above);
        let class = Row::class(5).under(4).set(0x13, &[1]);
        record.quick(&class.added(), (0, 2, 5));
        kept(record, 5, [0b11_1011, 0b10, 0b1]);
    }
    stores(record);
    record.quick(&entry(0x49, 4, 0x15, 2), (0, 2, 4));
    record.poke(1, class_byte(3, 152), 4);
    poke(record, 3, [0b1_1000, 0, 0]);
    record.quick(&entry(0x4A, 4, 0x15, 2), (0, 2, 4));
    kept(record, 3, [0b1_1011, 0, 0b1]);
    kept(record, 4, [0b1_1011, 0, 0b1]);
}

/// It is asked for at row 0 alone.
fn superclass_of_row_0(record: &mut Record) {
    stores(record);
    record.poke(1, class_byte(0, 152), 4);
    record.quick(&alter(0x46, 0, &[]), (11, 0, 0));
    record.quick(&entry(0x49, 0, 0x15, 0), (18, 0, 0));
    record.quick(&Row::class(5).under(4).added(), (0, 2, 5));
}

/// Other rows' wrong names and syntaxes do not matter; of a linked row that
/// comes back 28 is told before 45.
fn others(record: &mut Record) {
    stores(record);
    record.poke(0, attribute_byte(0, 1), b'1');
    record.poke(0, attribute_byte(1, 152), 65);
    record.quick(&alter(0x45, 2, &[]), (0, 1, 2));
    record.quick(&alter(0x45, 1, &[]), (26, 0, 0));
    record.quick(&alter(0x42, 1, &[]), (26, 0, 0));
    stores(record);
    record.poke(0, attribute_byte(0, 184), 2);
    record.audit((45, 1, 0));
    record.quick(&alter(0x42, 0, &[]), (45, 0, 0));
    record.quick(&alter(0x45, 2, &[]), (0, 1, 2));
    record.poke(0, attribute_byte(2, 184), 2);
    record.quick(&alter(0x47, 2, &[]), (28, 0, 0));
    record.poke(0, attribute_byte(0, 184), 0);
    record.quick(&alter(0x47, 2, &[]), (45, 0, 0));
    record.quick(&rename(0x43, 0, b"other"), (0, 1, 0));
}

/// An entry without a row counts as listed (10), gives 17 while it stays, and may
/// be removed; where sets are worked out it is passed over.
fn without_a_row(record: &mut Record) {
    stores(record);
    record.poke(1, class_byte(3, 219), 0b1001);
    record.quick(&entry(0x49, 3, 0x15, 3), (10, 0, 0));
    record.quick(&entry(0x4A, 3, 0x15, 0), (17, 0, 0));
    record.quick(&entry(0x4A, 3, 0x15, 3), (0, 2, 3));
    stores(record);
    record.poke(1, class_byte(1, 155), 0b100_0000);
    record.poke(1, class_byte(1, 251), 0b1000_0000);
    record.quick(&entry(0x4A, 3, 0x19, 4), (0, 2, 3));
    kept(record, 3, [0b1011, 0b100_0000, 0b1]);
}
