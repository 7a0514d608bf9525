//! Rules 12 to 16, and which row and number a load names.

use super::record::{PASSED, Record};
use super::rows::{Row, rename};

/// All five rules, then the choice among them.
pub fn examples(record: &mut Record) {
    names(record);
    name_bytes(record);
    names_taken(record);
    folded(record);
    identifiers(record);
    identifiers_taken(record);
    guids_taken(record);
    first_found(record);
}

/// P1, and each wrong name in an active and a defunct row of both tables.
fn names(record: &mut Record) {
    record.pass(&[Row::attribute(0).named("area-Ha")]);
    for name in ["", "1area", "-a", "a_b", "a b"] {
        record.both(&[Row::attribute(0).named(name)], 0, (12, 1, 0));
        record.both(&[Row::class(0).named(name)], 0, (12, 2, 0));
    }
}

/// The bytes beside letters, digits and the hyphen, first and later in a name;
/// a hyphen and a digit may end one, and one letter is enough.
fn name_bytes(record: &mut Record) {
    record.pass(&[Row::attribute(0)]);
    let wrong = b"@[`{/:,._ \x00\x7F\x80\xC1\xE1\xFA";
    for byte in wrong.iter().chain(b"-09") {
        record.refused(&rename(0x43, 0, &[*byte, b'a']), 12);
    }
    for byte in wrong {
        record.refused(&rename(0x43, 0, &[b'a', *byte]), 12);
        record.refused(&rename(0x43, 0, &[b'a', *byte, b'a']), 12);
    }
    for byte in b"AZazMm" {
        record.plain(&rename(0x43, 0, &[*byte]), (0, 1, 0));
    }
    for byte in b"AZaz09-" {
        record.plain(&rename(0x43, 0, &[b'x', *byte]), (0, 1, 0));
    }
}

/// In either table, by active and defunct rivals; a longer name is another.
fn names_taken(record: &mut Record) {
    let (a0, a1, a2) = (Row::attribute(0), Row::attribute(1), Row::attribute(2));
    let (c0, c1, c2) = (Row::class(0), Row::class(1), Row::class(2));
    let same = |row: &Row| row.clone().named("same");
    let [b0, b1, b2, d1, d2] = [&a0, &a1, &a2, &c1, &c2].map(same);
    record.both(&[b0.clone(), b1.clone()], 0, (13, 1, 0));
    record.both(&[b0.clone(), b1.clone()], 1, (13, 1, 0));
    record.both(&[a0.clone(), b1.clone(), b2], 2, (13, 1, 1));
    record.both(&[b0.clone(), c0.clone(), d1.clone()], 0, (13, 1, 0));
    record.both(&[b0, c0.clone(), d1.clone()], 2, (13, 1, 0));
    record.both(&[c0.clone(), d1.clone(), d2.clone()], 1, (13, 2, 1));
    record.both(&[c0.clone(), d1, d2], 2, (13, 2, 1));
    record.pass(&[a0.named("same"), a1.named("samex"), c0.named("sam")]);
    let long = "n".repeat(64);
    let other = "n".repeat(63) + "m";
    let row = Row::attribute;
    record.rows(&[row(0).named(&long), row(1).named(&long)], (13, 1, 0));
    record.pass(&[row(0).named(&long), row(1).named(&other)]);
}

/// "A to Z equal to a to z"; P12; and one letter is not like another.
fn folded(record: &mut Record) {
    let row = Row::attribute;
    for (name, rival) in [("a", "A"), ("Z", "z"), ("x-m", "X-M"), ("yB", "Yb")] {
        record.both(&[row(0).named(name), row(1).named(rival)], 1, (13, 1, 0));
    }
    record.pass(&[row(0).named("az"), row(1).named("bz"), row(2).named("aZ-")]);
    record.plain(&rename(0x43, 0, b"AZ"), (0, 1, 0));
    record.refused(&rename(0x43, 1, b"Az"), 13);
}

/// P2, each limit at its edge and past it, in active and defunct rows.
fn identifiers(record: &mut Record) {
    let row = |arcs: &[u32]| Row::attribute(0).arcs(arcs);
    for wrong in [&[][..], &[2], &[3, 1], &[u32::MAX, 0], &[0, 40], &[1, 40]] {
        record.both(&[row(wrong)], 0, (14, 1, 0));
    }
    record.both(&[Row::class(0).arcs(&[1, 40, 1])], 0, (14, 2, 0));
    for right in [&[2, 999][..], &[2, u32::MAX], &[0, 39], &[1, 39], &[0, 0]] {
        record.pass(&[row(right)]);
    }
    record.pass(&[row(&[2; 16])]);
}

/// Identifiers are the same where all arcs are, and as many.
fn identifiers_taken(record: &mut Record) {
    let row = |number, arcs: &[u32]| Row::attribute(number).arcs(arcs);
    let class = |arcs: &[u32]| Row::class(0).arcs(arcs);
    for arcs in [&[2, 5][..], &[1, 2, 70_000], &[2; 16]] {
        record.both(&[row(0, arcs), row(1, arcs)], 0, (15, 1, 0));
        record.both(&[row(0, arcs), row(1, arcs)], 1, (15, 1, 0));
    }
    record.both(&[row(0, &[2, 5]), class(&[2, 5])], 0, (15, 1, 0));
    record.both(&[row(0, &[2, 5]), class(&[2, 5])], 1, (15, 1, 0));
    let classes = [
        Row::class(0),
        Row::class(1).arcs(&[2, 5]),
        Row::class(2).arcs(&[2, 5]),
    ];
    record.both(&classes, 2, (15, 2, 1));
    let mut last = [2; 16];
    last[15] = 1;
    record.pass(&[row(0, &[2; 16]), row(1, &last), row(2, &[2; 15])]);
    record.pass(&[row(0, &[2, 5]), row(1, &[1, 5]), row(2, &[2, 5, 0])]);
    record.pass(&[row(0, &[2, 0x1_0005]), row(1, &[2, 5]), class(&[2, 6])]);
}

/// GUIDs are the same where all 16 bytes are; one of zeros is one too.
fn guids_taken(record: &mut Record) {
    let row = |number, guid: u128| Row::attribute(number).guid(guid);
    let high = 1 << 120;
    for guid in [0, 7, high, u128::MAX] {
        record.both(&[row(0, guid), row(1, guid)], 0, (16, 1, 0));
        record.both(&[row(0, guid), row(1, guid)], 1, (16, 1, 0));
    }
    record.both(&[row(0, 7), Row::class(0).guid(7)], 1, (16, 1, 0));
    record.both(&[row(0, 7), Row::class(0).guid(7)], 0, (16, 1, 0));
    let classes = [Row::class(0), Row::class(1).guid(7), Row::class(2).guid(7)];
    record.both(&classes, 1, (16, 2, 1));
    record.pass(&[row(0, 7), row(1, 6), row(2, high | 7), row(3, 1 << 64 | 7)]);
}

/// The first number, in the order of judging, over all rows, then the lowest
/// row that breaks it, an attribute before a class.
fn first_found(record: &mut Record) {
    let row = Row::attribute;
    let (wrong, falling) = ("1", row(0).range(2, 1));
    record.rows(&[falling.clone(), row(1).named(wrong)], (12, 1, 1));
    record.rows(&[falling.clone(), Row::class(0).named(wrong)], (12, 2, 0));
    let one = Row::class(1).named(wrong);
    record.rows(
        &[row(0), row(1).named(wrong), Row::class(0), one.clone()],
        (12, 1, 1),
    );
    record.rows(&[row(0), row(1), Row::class(0), one], (12, 2, 1));
    record.rows(
        &[row(0), row(1).range(3, 2), row(2).range(2, 1)],
        (25, 1, 1),
    );
    let both = row(0)
        .named("c0")
        .arcs(&[2])
        .guid(u128::from(0x30_u8) << 64);
    record.rows(&[both.clone(), Row::class(0)], (13, 1, 0));
    record.rows(&[both.clone().named("a0"), Row::class(0)], (14, 1, 0));
    record.rows(&[both.named("a0").arcs(&[2, 2]), Row::class(0)], (16, 1, 0));
    record.load(&[], (4, 0, 0));
    record.rows(&[falling.named("")], (12, 1, 0));
    record.rows(&[], PASSED);
}
