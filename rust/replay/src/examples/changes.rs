//! Plain changes: numbers 4 to 11, 12 to 29 and 30, and what is changed.

use super::base;
use super::record::{Given, PASSED, Record};
use super::rows::{Row, alter, entry, field, range, rename, sheet};

/// All of them, each from the base schema.
pub fn examples(record: &mut Record) {
    record.pass(&base::all());
    record.audit(PASSED);
    unreadable(record);
    unreadable_inside(record);
    unreadable_additions(record);
    not_there(record);
    wrong_state(record);
    base_rows(record);
    base_rows_added(record);
    listed(record);
    needed(record);
    rules(record);
    rules_added(record);
    demands(record);
    order_of_numbers(record);
    done(record);
    added(record);
    empty_table(record);
}

fn unread(record: &mut Record, change: &[u8], place: u64) {
    record.plain(change, (4, 0, place));
}

/// The change's own field: none, cut, of no kind, and bytes behind it.
fn unreadable(record: &mut Record) {
    unread(record, &[], 0);
    let whole = alter(0x45, 8, &[]);
    for cut in [1, 2, 3, 7] {
        unread(record, &whole[..cut], 0);
    }
    for tag in [0x00, 0x01, 0x20, 0x30, 0x3F, 0x4B, 0xC5] {
        unread(record, &alter(tag, 8, &[]), 0);
    }
    for more in [&[0][..], &[0x01], &[0x45, 0], &[1, 0, 0], &whole] {
        unread(record, &[&whole[..], more].concat(), 8);
    }
    unread(record, &[&alter(0x46, 18, &[])[..], &[0x20]].concat(), 8);
    // What is wrong inside comes first; a missing field ends where they begin.
    let short = field(0x45, &field(0x20, &[8]));
    unread(record, &[&short[..], &[0]].concat(), 3);
    unread(record, &[&alter(0x43, 8, &[])[..], &[0]].concat(), 8);
}

/// Target, ends, name, list and entry: missing, late, doubled, of another length.
fn unreadable_inside(record: &mut Record) {
    let end = field(0x0A, &[0; 4]);
    for tag in 0x42..=0x4A {
        unread(record, &field(tag, &[]), 3);
        unread(record, &field(tag, &field(0x20, &[0])), 3);
        unread(record, &field(tag, &field(0x20, &[0, 0, 0])), 3);
        unread(record, &alter(tag, 8, &field(0x20, &[0, 0])), 8);
        unread(record, &alter(tag, 8, &[0x0A]), 8);
    }
    unread(record, &field(0x42, &end), 10);
    unread(
        record,
        &field(0x42, &[&end[..], &field(0x20, &[0, 8])].concat()),
        10,
    );
    for tag in 0x45..=0x48 {
        unread(record, &alter(tag, 8, &end), 8);
        unread(record, &alter(tag, 8, &field(0x01, b"x")), 8);
    }
    for wrong in [
        &field(0x0A, &[0; 3])[..],
        &field(0x0B, &[0; 5]),
        &field(0x0C, &[1; 4]),
    ] {
        unread(record, &alter(0x42, 8, wrong), 8);
    }
    let fallen = [field(0x0B, &[0; 4]), end].concat();
    unread(record, &alter(0x42, 8, &fallen), 15);
    for tag in [0x43, 0x44] {
        unread(record, &alter(tag, 8, &[]), 8);
        unread(record, &rename(tag, 8, &[b'a'; 65]), 8);
        unread(
            record,
            &field(tag, &[field(1, b"x"), field(0x20, &[0, 8])].concat()),
            7,
        );
    }
    unreadable_entries(record);
}

fn unreadable_entries(record: &mut Record) {
    for tag in [0x49, 0x4A] {
        let list = field(0x21, &[0x15]);
        unread(record, &alter(tag, 18, &[]), 8);
        unread(record, &alter(tag, 18, &list), 12);
        unread(record, &alter(tag, 18, &field(0x22, &[0, 1])), 13);
        for wrong in [
            &[0x14][..],
            &[0x16],
            &[0x18],
            &[0x13],
            &[15],
            &[],
            &[0x15, 0],
            &[0x19, 0],
        ] {
            unread(record, &alter(tag, 18, &field(0x21, wrong)), 8);
        }
        for wrong in [&[][..], &[1], &[0, 0, 1]] {
            let rest = [&list[..], &field(0x22, wrong)].concat();
            unread(record, &alter(tag, 18, &rest), 12);
        }
        let more = [&entry(tag, 18, 0x15, 1)[3..], &field(0x22, &[0, 1])].concat();
        unread(record, &field(tag, &more), 17);
    }
}

/// "value as a row, no 05"
fn unreadable_additions(record: &mut Record) {
    for row in [Row::attribute(20), Row::class(20)] {
        let whole = row.length();
        let before: u64 = (1..5).map(|tag| row.field_length(tag)).sum();
        unread(record, &row.clone().defunct().added(), 3 + before);
        unread(record, &row.clone().without(0x03).added(), whole - 19);
        unread(record, &row.clone().with(0x01, &[b'a'; 65]).added(), 3);
        unread(record, &row.clone().then(0x1A, &[]).added(), whole);
        unread(record, &[row.added(), vec![0]].concat(), whole);
        unread(record, &row.added()[..whole as usize - 1], 0);
    }
    // The fields that both tables have come first: 6, 15, 19 and 7 bytes.
    let own = 3 + 6 + 15 + 19 + 7;
    unread(record, &field(0x40, &Row::class(20).value()), own);
    unread(record, &field(0x41, &Row::attribute(20).value()), own);
    unread(record, &field(0x40, &[]), 3);
    unread(record, &field(0x41, &[]), 3);
}

/// "5 target row not there": each table has its own count, and any u16 is read.
fn not_there(record: &mut Record) {
    for tag in [0x42, 0x45, 0x47] {
        for target in [15, 18, 255, 256, 0x0108, 65535] {
            record.refused(&alter(tag, target, &[]), 5);
        }
    }
    for tag in [0x46, 0x48] {
        for target in [19, 127, 128, 256, 0x0112, 65535] {
            record.refused(&alter(tag, target, &[]), 5);
        }
    }
    record.refused(&rename(0x43, 15, b"x"), 5);
    record.refused(&rename(0x44, 19, b"x"), 5);
    record.refused(&entry(0x49, 19, 0x15, 8), 5);
    record.refused(&entry(0x4A, 0x0101, 0x15, 10), 5);
}

/// "7 target defunct, unless reactivated; or active and reactivated"
fn wrong_state(record: &mut Record) {
    record.refused(&range(3, None, None), 7);
    record.refused(&rename(0x43, 3, b"x"), 7);
    record.refused(&rename(0x44, 7, b"x"), 7);
    record.refused(&alter(0x45, 3, &[]), 7);
    record.refused(&alter(0x46, 7, &[]), 7);
    record.refused(&entry(0x49, 7, 0x15, 8), 7);
    record.refused(&entry(0x49, 10, 0x19, 4), 7);
    record.refused(&entry(0x4A, 7, 0x15, 8), 7);
    record.refused(&alter(0x47, 8, &[]), 7);
    record.refused(&alter(0x48, 18, &[]), 7);
    record.refused(&alter(0x47, 2, &[]), 7);
    record.refused(&alter(0x48, 6, &[]), 7);
    record.refused(&rename(0x43, 13, b"x"), 7);
}

/// "8 base row, and range, display name or deactivation asked, even with equal
/// values"; its lists may change, and 0x10 is the bit.
fn base_rows(record: &mut Record) {
    record.refused(&range(2, Some(3), None), 8);
    record.refused(&range(2, Some(1), Some(2)), 8);
    record.refused(&range(2, Some(2), Some(1)), 8);
    record.refused(&rename(0x43, 2, b"x"), 8);
    record.refused(&rename(0x43, 2, b"a2"), 8);
    record.refused(&rename(0x43, 2, b"1"), 8);
    record.refused(&rename(0x44, 6, b"c6"), 8);
    record.refused(&rename(0x44, 0, b"x"), 8);
    record.refused(&alter(0x45, 2, &[]), 8);
    record.refused(&alter(0x46, 6, &[]), 8);
    record.refused(&alter(0x46, 0, &[]), 8);
    record.plain(&rename(0x43, 8, b"a8"), (0, 1, 8));
    record.plain(&entry(0x49, 6, 0x15, 8), (0, 2, 6));
    record.plain(&entry(0x4A, 6, 0x15, 8), (0, 2, 6));
}

/// "9 an added row has 0x10 set", whatever else; a base row may come back.
fn base_rows_added(record: &mut Record) {
    for flags in [0x10, 0x30, 0xFFFF_FFFF, 0x12] {
        record.refused(&Row::attribute(15).flags(flags).added(), 9);
        record.refused(&Row::class(19).flags(flags).named("1").added(), 9);
    }
    for (tag, target, table) in [(0x47, 13, 1), (0x48, 16, 2)] {
        record.plain(&alter(tag, target, &[]), (0, table, u64::from(target)));
        record.refused(&alter(tag - 2, target, &[]), 8);
    }
    record.pass(&base::all());
}

/// "10 addition to a list: already in the open or fixed one; removal: not in
/// the open one", each list by itself.
fn listed(record: &mut Record) {
    let kinds = [(0x15, 10, 11, 9), (0x17, 2, 3, 12), (0x19, 4, 5, 18)];
    let mut length = sheet(&base::all()).len() as u64;
    for (list, fixed, open, other) in kinds {
        record.refused(&entry(0x49, 1, list, fixed), 10);
        record.refused(&entry(0x49, 1, list, open), 10);
        record.refused(&entry(0x4A, 1, list, other), 10);
        record.refused(&entry(0x4A, 1, list, 65535), 10);
        record.plain(&entry(0x49, 1, list, other), (0, 2, 1));
        record.refused(&entry(0x49, 1, list, other), 10);
        record.plain(&entry(0x4A, 1, list, other), (0, 2, 1));
        record.plain(&entry(0x4A, 1, list, fixed), (0, 2, 1));
        record.refused(&entry(0x4A, 1, list, fixed), 10);
        record.refused(&entry(0x49, 1, list, fixed), 10);
        record.plain(&entry(0x4A, 1, list, open), (0, 2, 1));
        record.refused(&entry(0x4A, 1, list, open), 10);
        record.plain(&entry(0x49, 1, list, open), (0, 2, 1));
        length -= 2;
        record.write(4000, (0, 0, length));
    }
    record.refused(&entry(0x4A, 6, 0x15, 14), 10);
    record.pass(&base::all());
}

/// "11 deactivation: an active class names the attribute, or another active
/// class names the class, in any list, as superclass or as rDNAttID; or an
/// active back link needs it"
fn needed(record: &mut Record) {
    for attribute in [0, 9, 10, 11, 14] {
        record.refused(&alter(0x45, attribute, &[]), 11);
    }
    record.refused(&alter(0x45, 4, &[]), 11);
    for class in [2, 3, 4, 5, 1, 13] {
        record.refused(&alter(0x46, class, &[]), 11);
    }
    for attribute in [1, 5, 6, 8, 12] {
        record.plain(&alter(0x45, attribute, &[]), (0, 1, attribute.into()));
    }
    record.plain(&alter(0x45, 4, &[]), (0, 1, 4));
    for class in [9, 11, 18, 17, 1, 8, 15, 14, 13] {
        record.plain(&alter(0x46, class, &[]), (0, 2, class.into()));
    }
    for attribute in [0, 9, 11] {
        let given = if attribute == 9 {
            (11, 0, 0)
        } else {
            (0, 1, attribute.into())
        };
        record.plain(&alter(0x45, attribute, &[]), given);
    }
    record.audit(PASSED);
    came_back(record);
    record.pass(&base::all());
}

/// "A reactivation carries nothing but itself, and gets an addition's checks 12
/// to 29 (003), not 9"; its own number may stand in its lists.
fn came_back(record: &mut Record) {
    record.refused(&alter(0x48, 1, &[]), 17);
    record.refused(&alter(0x47, 5, &[]), 29);
    record.plain(&alter(0x47, 4, &[]), (0, 1, 4));
    record.plain(&alter(0x47, 5, &[]), (0, 1, 5));
    record.plain(&alter(0x48, 9, &[]), (0, 2, 9));
    record.refused(&alter(0x48, 14, &[]), 18);
    record.refused(&alter(0x48, 15, &[]), 18);
    record.plain(&alter(0x48, 13, &[]), (0, 2, 13));
    record.plain(&alter(0x48, 14, &[]), (0, 2, 14));
    record.refused(&alter(0x48, 10, &[]), 17);
    // Another linkID, though it is larger, needs no forward link.
    record.plain(&alter(0x47, 6, &[]), (0, 1, 6));
    record.plain(&alter(0x45, 5, &[]), (0, 1, 5));
    record.plain(&alter(0x45, 4, &[]), (0, 1, 4));
}

/// Rules that a change of a row breaks.
fn rules(record: &mut Record) {
    record.refused(&rename(0x43, 8, b""), 12);
    record.refused(&rename(0x44, 18, b""), 12);
    record.refused(&rename(0x44, 18, b"-"), 12);
    record.refused(&rename(0x43, 8, b"C7"), 13);
    record.refused(&rename(0x44, 18, b"A3"), 13);
    record.refused(&rename(0x44, 18, b"c17"), 13);
    record.refused(&range(8, Some(1), Some(0)), 25);
    record.refused(&range(1, Some(1), Some(-1)), 25);
    record.refused(&range(8, Some(-2), Some(-3)), 25);
    record.refused(&range(8, Some(i32::MIN + 1), Some(i32::MIN)), 25);
    for dead in [3, 15, 18, 128, 255, 256, 0x0108, 65535] {
        record.refused(&entry(0x49, 18, 0x15, dead), 17);
    }
    for dead in [7, 10, 19, 127, 128, 256, 0x0102, 65535] {
        record.refused(&entry(0x49, 18, 0x17, dead), 18);
        record.refused(&entry(0x49, 18, 0x19, dead), 18);
    }
    record.refused(&entry(0x49, 18, 0x17, 4), 19);
    record.refused(&entry(0x49, 18, 0x17, 0), 19);
    record.refused(&entry(0x49, 18, 0x19, 0), 20);
    record.refused(&entry(0x49, 18, 0x19, 3), 20);
}

/// Rules that an added row breaks, with defunct rivals too.
fn rules_added(record: &mut Record) {
    let (attribute, class) = (Row::attribute(15), Row::class(19));
    let refused: [(Row, u64); 21] = [
        (attribute.clone().named("-"), 12),
        (attribute.clone().named("A3"), 13),
        (class.clone().named("C16"), 13),
        (attribute.clone().arcs(&[3, 3]), 14),
        (attribute.clone().arcs(&[2, 0x20, 3]), 15),
        (class.clone().arcs(&[2, 0x30, 7]), 15),
        (attribute.clone().guid(0x20 << 64 | 3), 16),
        (class.clone().set(0x15, &[3]), 17),
        (class.clone().under(7), 18),
        (class.clone().under(19), 18),
        (class.clone().set(0x16, &[4]), 19),
        (class.clone().set(0x18, &[2]), 20),
        (class.clone().category(2).under(4), 38),
        (class.clone().category(3).under(4), 39),
        (class.clone().under(3), 40),
        (class.naming(8), 23),
        (attribute.clone().mapi(4), 24),
        (attribute.clone().range(17, 16), 25),
        (attribute.clone().syntax(9, 65), 26),
        (attribute.clone().syntax(1, 127).with(0x08, &[1]), 27),
        (attribute.clone().link(5), 28),
    ];
    for (row, rule) in refused {
        record.refused(&row.added(), rule);
    }
    record.refused(&attribute.clone().link(7).added(), 29);
    record.refused(&attribute.clone().link(6).added(), 45);
    record.refused(&attribute.syntax(13, 127).link(6).added(), 45);
}

/// P10, P11 and 30: "some present class's mandatory set would differ".
fn demands(record: &mut Record) {
    record.refused(&entry(0x49, 18, 0x17, 12), 30);
    record.refused(&entry(0x49, 17, 0x17, 13), 30);
    record.refused(&entry(0x49, 1, 0x17, 14), 30);
    record.refused(&entry(0x49, 1, 0x17, 15), 30);
    record.refused(&entry(0x49, 3, 0x17, 12), 30);
    record.plain(&entry(0x49, 1, 0x17, 12), (0, 2, 1));
    record.plain(&entry(0x49, 17, 0x17, 12), (0, 2, 17));
    record.plain(&entry(0x4A, 1, 0x17, 12), (0, 2, 1));
    record.refused(&entry(0x4A, 15, 0x17, 13), 30);
    record.plain(&entry(0x49, 15, 0x17, 14), (0, 2, 15));
    record.plain(&entry(0x4A, 15, 0x17, 13), (0, 2, 15));
    record.refused(&entry(0x4A, 15, 0x17, 14), 30);
    record.plain(&entry(0x49, 18, 0x17, 9), (0, 2, 18));
    record.plain(&entry(0x49, 9, 0x15, 8), (0, 2, 9));
    record.plain(&entry(0x4A, 18, 0x17, 9), (0, 2, 18));
    record.plain(&entry(0x49, 2, 0x17, 3), (0, 2, 2));
    record.plain(&entry(0x49, 3, 0x17, 2), (0, 2, 3));
    record.audit(PASSED);
    record.pass(&base::all());
}

/// Where several hold, the first in the order of judging is given.
fn order_of_numbers(record: &mut Record) {
    let [absent, gone] = [&[0x20, 0x13], &[0x03, 0x02]].map(|n: &[u8; 2]| u16::from_be_bytes(*n));
    record.refused(&entry(0x49, absent, 0x15, gone), 5);
    record.refused(&rename(0x43, 13, b"1"), 7);
    record.refused(&alter(0x45, 13, &[]), 7);
    record.refused(&range(2, Some(9), Some(9)), 8);
    record.refused(&rename(0x43, 2, b"a3"), 8);
    record.refused(&Row::attribute(15).flags(0x10).arcs(&[]).added(), 9);
    record.refused(&Row::attribute(3).arcs(&[]).added(), 13);
    record.refused(&Row::attribute(3).named("x").added(), 15);
    let class = Row::class(19)
        .set(0x15, &[3])
        .set(0x17, &[4])
        .set(0x19, &[2]);
    record.refused(&class.clone().under(19).added(), 17);
    record.refused(&class.clone().set(0x15, &[1]).under(19).added(), 18);
    record.refused(&class.clone().set(0x15, &[1]).added(), 19);
    record.refused(&class.set(0x15, &[1]).set(0x17, &[3]).added(), 20);
    let misfit = Row::class(19).naming(8).category(3).under(4);
    record.refused(&misfit.clone().set(0x19, &[2]).added(), 20);
    record.refused(&misfit.clone().added(), 39);
    record.refused(&misfit.category(0).added(), 23);
    let link = Row::attribute(15).range(2, 1).link(2).syntax(1, 1);
    record.refused(&link.clone().mapi(4).added(), 24);
    record.refused(&link.clone().added(), 25);
    record.refused(&link.range(1, 2).added(), 26);
}

/// Each kind of change done: its table and row, and nothing else changed.
fn done(record: &mut Record) {
    let (least, most) = (Some(i32::MIN), Some(i32::MAX));
    let ends = [
        (least, most),
        (Some(0), None),
        (None, Some(0)),
        (Some(-1), Some(0)),
        (Some(16), Some(16)),
        (Some(-3), Some(-3)),
        (least, least),
        (None, None),
    ];
    for (lower, upper) in ends {
        record.plain(&range(1, lower, upper), (0, 1, 1));
    }
    record.plain(&range(8, None, Some(-5)), (0, 1, 8));
    record.plain(&range(8, Some(5), None), (0, 1, 8));
    record.plain(&range(8, Some(-1), Some(-1)), (0, 1, 8));
    record.plain(&alter(0x45, 8, &[]), (0, 1, 8));
    record.plain(&alter(0x47, 8, &[]), (0, 1, 8));
    record.plain(&rename(0x43, 8, b"A8"), (0, 1, 8));
    record.plain(&rename(0x43, 8, &[b'n'; 64]), (0, 1, 8));
    record.plain(&rename(0x43, 8, b"n"), (0, 1, 8));
    record.plain(&rename(0x44, 18, b"eighteen"), (0, 2, 18));
    record.plain(&rename(0x44, 8, b"a8"), (0, 2, 8));
    record.plain(&entry(0x49, 18, 0x19, 18), (0, 2, 18));
    record.plain(&entry(0x49, 18, 0x15, 0), (0, 2, 18));
    record.plain(&entry(0x49, 18, 0x15, 14), (0, 2, 18));
    record.plain(&entry(0x4A, 18, 0x15, 0), (0, 2, 18));
    record.audit(PASSED);
}

/// "an added row last in its table", with every field that it may have.
fn added(record: &mut Record) {
    let row = Row::attribute(15)
        .syntax(7, 127)
        .flags(0xFFFF_FFEF)
        .single();
    let number = |number: u64, table| -> Given { (0, table, number) };
    record.plain(
        &row.range(-2, -1).link(5 + 1).mapi(1).added(),
        number(15, 1),
    );
    for syntax in [7, 14] {
        let odd = Row::attribute(16).syntax(syntax, 127).link(7);
        record.refused(&odd.added(), 45);
    }
    record.plain(&Row::attribute(16).linked(7).added(), number(16, 1));
    record.plain(
        &Row::attribute(17).syntax(12, 64).with(0x08, &[1]).added(),
        number(17, 1),
    );
    let fixed = Row::attribute(18).syntax(10, 4).range(16, 16);
    record.plain(&fixed.added(), number(18, 1));
    let class = Row::class(19)
        .category(0)
        .under(3)
        .naming(0)
        .flags(0xFFFF_FFEF);
    let class = class
        .set(0x13, &[15, 16])
        .set(0x14, &[17])
        .set(0x15, &[0, 8]);
    let class = class.set(0x16, &[12]).set(0x17, &[13, 14]).set(0x18, &[4]);
    record.plain(&class.set(0x19, &[5, 8]).added(), number(19, 2));
    record.plain(&Row::class(20).category(0).under(19).added(), number(20, 2));
    record.depth(20, (0, 0, 3));
    record.audit(PASSED);
}

/// Row 0 added to an empty table: its own superclass, abstract, in no list.
fn empty_table(record: &mut Record) {
    record.pass(&[]);
    record.refused(&alter(0x45, 0, &[]), 5);
    record.refused(&alter(0x48, 0, &[]), 5);
    record.refused(&Row::class(0).under(1).added(), 18);
    record.refused(&Row::class(0).set(0x16, &[0]).added(), 18);
    record.refused(&Row::class(0).set(0x13, &[0]).added(), 17);
    record.refused(&Row::class(0).category(1).added(), 21);
    record.plain(&Row::class(0).added(), (0, 2, 0));
    record.plain(&Row::attribute(0).added(), (0, 1, 0));
    record.plain(&Row::class(1).set(0x13, &[0]).added(), (0, 2, 1));
    record.refused(&Row::class(2).under(2).added(), 18);
    record.plain(&Row::class(2).under(1).added(), (0, 2, 2));
    record.audit(PASSED);
}
