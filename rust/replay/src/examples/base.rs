//! The schema that the examples of changes start from.

use super::rows::Row;

/// Attributes: 0 names a class; 1 has a range; 2 is a base row; 3 is defunct; 4
/// and 5 are forward and back link; 6 and 7 too, the back link defunct; 8 is
/// free; 9, 10 and 11 are mandatory, fixed and open optional of class 1; 12 is
/// named by a defunct class only; 13 is a defunct base row; 14 is mandatory.
pub fn attributes() -> Vec<Row> {
    let row = Row::attribute;
    vec![
        row(0).single(),
        row(1).range(-1, 10),
        row(2).flags(0x10).range(1, 2),
        row(3).defunct(),
        row(4).linked(2),
        row(5).linked(3),
        row(6).linked(4).mapi(4),
        row(7).linked(5).defunct(),
        row(8).flags(0x8000_000F),
        row(9),
        row(10),
        row(11),
        row(12),
        row(13).flags(0x30).defunct(),
        row(14),
    ]
}

/// Classes: 1 names each kind once: 2 and 3 as auxiliaries, 4 and 5 as possible
/// superiors; 6 is a base row; 7 is defunct; 8 is under 4; 9 lists itself; 10 is
/// defunct and names 11; 12 to 15 are auxiliaries that demand something; 16 is
/// a defunct base row, 17 is under 1, and 18 is free.
pub fn classes() -> Vec<Row> {
    let (row, auxiliary) = (Row::class, |n| Row::class(n).category(3));
    let one = row(1).naming(0).set(0x13, &[9]).set(0x14, &[10]);
    let one = one.set(0x15, &[10, 11]).set(0x16, &[2]).set(0x17, &[2, 3]);
    let ten = row(10).defunct().set(0x13, &[12]).set(0x16, &[7]);
    vec![
        row(0).flags(0x10),
        one.set(0x18, &[4]).set(0x19, &[4, 5]),
        auxiliary(2),
        auxiliary(3),
        row(4),
        row(5),
        row(6).flags(0x10).set(0x15, &[10]).set(0x14, &[14]),
        auxiliary(7).defunct(),
        row(8).under(4),
        auxiliary(9).set(0x17, &[9]).set(0x19, &[4]),
        ten.set(0x18, &[11]),
        row(11),
        auxiliary(12).set(0x13, &[9]),
        auxiliary(13).set(0x13, &[9, 14]),
        auxiliary(14).under(13),
        auxiliary(15).set(0x17, &[13]),
        row(16).flags(0x10).defunct(),
        row(17).under(1),
        row(18),
    ]
}

/// All rows.
pub fn all() -> Vec<Row> {
    [attributes(), classes()].concat()
}
