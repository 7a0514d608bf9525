//! Sheets for the program that lists: the longest, and refused ones.

use super::rows::{Row, sheet};

/// "at most 32,768 bytes"
const LONGEST: usize = 32_768;

/// An attribute row with a name of so many letters.
fn named(number: u16, letters: usize) -> Row {
    let name = format!("a{number}");
    let more = "x".repeat(letters - name.len());
    Row::attribute(number).named(&(name + &more))
}

/// A sound sheet of just 32,768 bytes, whose classes stand last.
pub fn edge() -> Vec<u8> {
    let top = Row::class(0).set(0x13, &[0, 9]).set(0x14, &[1]);
    let last = Row::class(1).arcs(&[2, u32::MAX, 0]).set(0x15, &[1, 2, 9]);
    let classes = [top.set(0x15, &[1, 3]), last.defunct()];
    let short: Vec<Row> = (0..250).map(|number| named(number, 60)).collect();
    let left = LONGEST - sheet(&[&short[..], &classes].concat()).len();
    // What is left over is put into arcs of four bytes, and then into names.
    let (arcs, letters) = (left / 4, left % 4);
    let row = |number: u16| {
        let place = usize::from(number);
        let more = arcs / 250 + usize::from(place < arcs % 250);
        let row = named(number, 60 + usize::from(place < letters));
        let common = [2, u32::from(number)];
        row.arcs(&[&common[..], &vec![7; more + 1]].concat())
    };
    let rows: Vec<Row> = (0..250).map(row).chain(classes).collect();
    sheet(&rows)
}

/// A sheet refused by a rule, whose table and row differ.
pub fn range() -> Vec<u8> {
    let attribute = Row::attribute;
    sheet(&[attribute(0), attribute(1), attribute(2).range(6, 5)])
}

/// A sheet that breaks three rules: class 4 the first of them in the order of
/// judging, 38, a lower class 40, and an attribute 25.
pub fn kind() -> Vec<u8> {
    let class = Row::class;
    sheet(&[
        Row::attribute(0).range(6, 5),
        class(0),
        class(1).category(3),
        class(2).under(1),
        class(3),
        class(4).category(2).under(3),
    ])
}

/// A sheet that cannot be read at its end: nothing but a heading and a tag.
pub fn unreadable() -> Vec<u8> {
    [sheet(&[]), vec![0x20]].concat()
}
