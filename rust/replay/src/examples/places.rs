//! Number 4 at load: which place is told.

use super::record::Record;
use super::rows::{HEADING, Row, field, rows, sheet};

/// The heading, rows among each other, then fields within a row.
pub fn examples(record: &mut Record) {
    headings(record);
    late_headings(record);
    order_of_rows(record);
    cut_rows(record);
    left_over(record);
    missing_fields(record);
    doubled_fields(record);
    strange_fields(record);
    lengths_attribute(record);
    lengths_class(record);
    sets(record);
    first_of_two(record);
}

/// A load that is refused at a place.
fn at(record: &mut Record, bytes: &[u8], place: u64) {
    record.load(bytes, (4, 0, place));
}

/// Missing: told by the end of the sheet, where all else is sound. Otherwise
/// wrong: told where it stands.
fn headings(record: &mut Record) {
    let (attribute, class) = (Row::attribute(0), Row::class(0));
    at(record, &[], 0);
    at(record, &attribute.bytes(), attribute.length());
    at(record, &class.bytes(), class.length());
    let both = rows(&[attribute.clone(), class]);
    at(record, &both, both.len() as u64);
    for wrong in [&[2][..], &[0], &[], &[1, 1], &[1, 0], &[0, 1]] {
        at(record, &field(0x01, wrong), 0);
        at(record, &[field(0x01, wrong), attribute.bytes()].concat(), 0);
    }
    for cut in 1..4 {
        at(record, &HEADING[..cut], 0);
    }
    at(record, &[1, 0, 2, 1], 0);
    for high in [1, 2, 4, 8, 16, 32, 64, 128] {
        at(record, &[1, high, 1, 1], 0);
    }
}

/// Doubled, or after a row.
fn late_headings(record: &mut Record) {
    let (attribute, class) = (Row::attribute(0).bytes(), Row::class(0).bytes());
    let long = |parts: &[&[u8]]| parts.concat().len() as u64;
    at(record, &[HEADING, HEADING].concat(), 4);
    for row in [&attribute, &class] {
        at(
            record,
            &[&HEADING, &row[..], &HEADING].concat(),
            4 + long(&[row]),
        );
        at(record, &[&row[..], &HEADING].concat(), long(&[row]));
    }
    let both = [&attribute[..], &class].concat();
    at(record, &[&both[..], &HEADING].concat(), long(&[&both]));
    at(record, &[&HEADING, &HEADING, &attribute[..]].concat(), 4);
}

/// "attribute rows 20, class rows 30", and nothing else; a row out of order is
/// told by its tag, even where its inside cannot be read.
fn order_of_rows(record: &mut Record) {
    let (attribute, class) = (Row::attribute(0), Row::class(0));
    let place = 4 + class.length();
    at(record, &sheet(&[class.clone(), attribute.clone()]), place);
    at(
        record,
        &sheet(&[class.clone(), attribute.clone().without(0x03)]),
        place,
    );
    let late = [sheet(std::slice::from_ref(&class)), field(0x20, &[9])].concat();
    at(record, &late, place);
    record.pass(&[attribute.clone(), class.clone()]);
    record.pass(&[class]);
    for strange in [0x00, 0x02, 0x10, 0x21, 0x31, 0x40, 0xFF] {
        at(
            record,
            &[&HEADING[..], &field(strange, &attribute.value())].concat(),
            4,
        );
    }
}

/// A row that runs past the end of the sheet is told by its tag, whatever is
/// in it, a field that runs past the end of its row by its own.
fn cut_rows(record: &mut Record) {
    for row in [Row::attribute(0), Row::class(0)] {
        let whole = sheet(&[row.clone(), row.clone()]);
        for cut in [1, 2, 3, 10, row.length()] {
            let end = whole.len() - cut as usize;
            if cut < row.length() {
                at(record, &whole[..end], 4 + row.length());
            }
        }
        let mut long = whole.clone();
        long[6] += 1;
        at(record, &long, 4 + row.length());
        let mut short = whole.clone();
        short[6] -= 1;
        let last = row.value().len() as u64 - row.last_field();
        at(record, &short, 7 + last);
        let mut far = whole;
        far[5] = 1;
        at(record, &far, 4);
    }
}

/// One or two bytes that are no field, at the end of a sheet and of a row.
fn left_over(record: &mut Record) {
    for row in [Row::attribute(0), Row::class(0)] {
        let tag = row.bytes()[0];
        for more in [&[0x01][..], &[0x20], &[0x30, 0], &[0x0D, 0], &[0x19]] {
            let bytes = [&sheet(std::slice::from_ref(&row))[..], more].concat();
            at(record, &bytes, 4 + row.length());
            let value = [&row.value()[..], more].concat();
            let bytes = [&HEADING[..], &field(tag, &value)].concat();
            at(record, &bytes, 4 + row.length());
            let bytes = [bytes, Row::class(1).bytes()].concat();
            at(record, &bytes, 4 + row.length());
        }
    }
    at(record, &[&HEADING[..], &[0]].concat(), 4);
}

/// Told by the end of the row, which is where the next row begins; an empty row
/// misses all.
fn missing_fields(record: &mut Record) {
    let next = Row::class(1).bytes();
    let attribute = [1, 2, 3, 4, 6, 7].map(|tag| (Row::attribute(0), tag));
    let class = [1, 2, 3, 4, 0x10, 0x11].map(|tag| (Row::class(0), tag));
    for (row, tag) in attribute.into_iter().chain(class) {
        let row = row.without(tag);
        let bytes = sheet(std::slice::from_ref(&row));
        at(record, &bytes, bytes.len() as u64);
        at(record, &[&bytes[..], &next].concat(), bytes.len() as u64);
    }
    at(record, &[&HEADING[..], &field(0x20, &[])].concat(), 7);
    at(record, &[&HEADING[..], &field(0x30, &[])].concat(), 7);
    let two = Row::attribute(0).without(0x01).without(0x07);
    at(record, &sheet(std::slice::from_ref(&two)), 4 + two.length());
}

/// "in rising tag order, each once"
fn doubled_fields(record: &mut Record) {
    let full = full_attribute();
    for tag in 1..=0x0D {
        let row = full.clone().then(tag, &full.field_value(tag));
        at(record, &sheet(&[row]), 4 + full.length());
    }
    let class = full_class();
    for tag in [1, 2, 3, 4, 5].into_iter().chain(0x10..=0x19) {
        let row = class.clone().then(tag, &class.field_value(tag));
        at(record, &sheet(&[row]), 4 + class.length());
    }
}

/// Every field that an attribute may have.
fn full_attribute() -> Row {
    let row = Row::attribute(0).syntax(1, 127).defunct().single();
    row.with(0x08, &[1]).range(1, 2).link(2).mapi(1)
}

/// Every field that a class may have.
fn full_class() -> Row {
    let row = Row::class(0).defunct().naming(0);
    (0x13..=0x19).fold(row, |row, tag| row.set(tag, &[0]))
}

/// Fields of the other table, and tags that no row has.
fn strange_fields(record: &mut Record) {
    for row in [Row::attribute(0), Row::class(0)] {
        for tag in [0x00, 0x0E, 0x0F, 0x1A, 0x20, 0x30, 0xFF] {
            let strange = row.clone().then(tag, &[1]);
            at(record, &sheet(&[strange]), 4 + row.length());
        }
    }
    let attribute = Row::attribute(0);
    at(
        record,
        &sheet(&[attribute.clone().then(0x13, &[0, 0])]),
        4 + attribute.length(),
    );
    at(
        record,
        &sheet(&[attribute.clone().then(0x10, &[1])]),
        4 + attribute.length(),
    );
    let early = Row::class(0).without(0x10).without(0x11);
    let with = early
        .clone()
        .then(0x06, &[12])
        .then(0x10, &[2])
        .then(0x11, &[0, 0]);
    at(record, &sheet(&[with]), 4 + early.length());
}

/// A field of a row that is told by its tag: all before it stays.
fn wrong(record: &mut Record, row: Row, tag: u8, value: &[u8]) {
    let before: u64 = (0..tag).map(|tag| row.field_length(tag)).sum();
    at(record, &sheet(&[row.with(tag, value)]), 7 + before);
}

/// Lengths: one less and one more, and the limits at their edge and past it.
fn lengths_attribute(record: &mut Record) {
    let full = full_attribute();
    for (tag, length) in [
        (3, 16),
        (4, 4),
        (6, 1),
        (7, 1),
        (10, 4),
        (11, 4),
        (12, 4),
        (13, 4),
    ] {
        wrong(record, full.clone(), tag, &vec![1; length - 1]);
        wrong(record, full.clone(), tag, &vec![1; length + 1]);
    }
    for tag in [5, 9] {
        wrong(record, full.clone(), tag, &[0]);
    }
    for length in [1, 2, 3, 5, 6, 63, 65, 68] {
        wrong(record, full.clone(), 2, &vec![0; length]);
    }
    wrong(record, full.clone(), 1, &[b'a'; 65]);
    wrong(record, full.clone(), 8, &[]);
    wrong(record, full.clone(), 8, &[1; 17]);
    wrong(record, full.clone(), 12, &[0; 4]);
    wrong(record, full, 13, &[0; 4]);
    let (row, long) = (Row::attribute(0), "a".repeat(64));
    record.pass(&[row.named(&long).arcs(&[1; 16])]);
}

/// The same of a class; "Category over 3", a class number of 128 and an
/// attribute number of 256.
fn lengths_class(record: &mut Record) {
    let full = full_class();
    for (tag, length) in [(3, 16), (4, 4), (0x10, 1), (0x11, 2), (0x12, 2)] {
        wrong(record, full.clone(), tag, &vec![0; length - 1]);
        wrong(record, full.clone(), tag, &vec![0; length + 1]);
    }
    wrong(record, full.clone(), 1, &[b'a'; 65]);
    wrong(record, full.clone(), 2, &[0; 68]);
    wrong(record, full.clone(), 5, &[5]);
    for category in [4, 5, 0x80, 0xFF] {
        wrong(record, full.clone(), 0x10, &[category]);
    }
    for number in [[0, 128], [1, 0], [0xFF, 0xFF]] {
        wrong(record, full.clone(), 0x11, &number);
    }
    for number in [[1, 0], [1, 1], [0xFF, 0xFF]] {
        wrong(record, full.clone(), 0x12, &number);
    }
}

/// "two bytes an entry, strictly rising, not empty"
fn sets(record: &mut Record) {
    let full = full_class();
    for tag in 0x13..=0x19 {
        let past: &[u8] = if tag < 0x16 { &[1, 0] } else { &[0, 128] };
        let rising = [&[0, 1], past].concat();
        for value in [&[][..], &[0], &[0, 1, 0], past, &rising, &[0, 1, 0, 1]] {
            wrong(record, full.clone(), tag, value);
        }
        wrong(record, full.clone(), tag, &[0, 2, 0, 1]);
        wrong(record, full.clone(), tag, &[0, 1, 0, 3, 0, 2]);
        wrong(record, full.clone(), tag, &[0xFF, 0xFF]);
    }
}

/// Of two wrong places the first; a missing field only where the rest of its
/// value is sound, the heading only where all rows are.
fn first_of_two(record: &mut Record) {
    let row = Row::attribute(0);
    let missing = row.clone().without(0x01);
    let wrong_after = missing.clone().with(0x07, &[]);
    let place = 4 + missing.length() - 4;
    at(record, &sheet(&[wrong_after]), place);
    let strange = missing.clone().then(0x0E, &[]);
    at(
        record,
        &sheet(&[missing.clone(), strange]),
        4 + missing.length(),
    );
    let later = rows(&[row.clone(), missing]);
    at(record, &later, later.len() as u64);
    let wrong_inside = row.clone().with(0x06, &[]);
    let place = row.length() + 3 + row.field_length(1) + row.field_length(2) + 19 + 7;
    at(record, &rows(&[row.clone(), wrong_inside.clone()]), place);
    let two = sheet(&[row.clone(), wrong_inside.clone(), wrong_inside]);
    at(record, &two, 4 + place);
    let swapped = Row::attribute(0).without(0x06).then(0x06, &[12]);
    at(record, &sheet(&[swapped]), 4 + row.length() - 4);
    let late = Row::class(0).without(0x01).then(0x01, b"c0");
    at(record, &sheet(&[late]), 4 + Row::class(0).length() - 5);
}
