//! Quick changes: the same as plain ones on stores in order, and their fixed
//! answers on stores that are not.

use super::base;
use super::limits::chain;
use super::record::{PASSED, Record};
use super::rows::{Row, alter, entry, range, rename};

/// Where the kept sets of a class stand: reached, mandatory, optional.
fn kept(class: usize) -> [usize; 3] {
    [80 * class, 80 * class + 16, 80 * class + 48]
}

/// Where a class row's superclass and its open auxiliaries stand.
fn superclass(class: usize) -> usize {
    2 + 315 * class + 152
}

/// Where a class row's category stands.
fn category(class: usize) -> usize {
    2 + 315 * class + 151
}

/// All of them, each from the base schema.
pub fn examples(record: &mut Record) {
    refused(record);
    rules(record);
    full(record);
    done(record);
    added(record);
    demands(record);
    only_the_changed_row(record);
    astray(record);
    misfits(record);
    linked(record);
    demands_as_kept(record);
    union_as_kept(record);
    joined_as_kept(record);
    removed_afresh(record);
    without_a_row(record);
    first_class(record);
}

fn number(record: &mut Record, change: &[u8], number: u64) {
    record.quick(change, (number, 0, 0));
}

/// 1, 2, 4 and 5 to 11.
fn refused(record: &mut Record) {
    record.pass(&base::all());
    record.quick(&[], (4, 0, 0));
    record.quick(&alter(0x43, 8, &[]), (4, 0, 8));
    number(record, &alter(0x45, 15, &[]), 5);
    number(record, &alter(0x47, 8, &[]), 7);
    number(record, &rename(0x44, 7, b"x"), 7);
    number(record, &rename(0x44, 6, b"c6"), 8);
    number(record, &Row::class(19).flags(0x10).added(), 9);
    number(record, &entry(0x49, 1, 0x15, 10), 10);
    number(record, &entry(0x4A, 1, 0x17, 12), 10);
    number(record, &alter(0x45, 9, &[]), 11);
    let old = record.poke(1, superclass(3), 128);
    record.quick(&[], (2, 0, 0));
    record.poke(1, superclass(3), old);
    record.resize(2, 10_239);
    record.quick(&[], (1, 0, 0));
    record.resize(2, 10_256);
}

/// Rules 12 to 29 of the changed row, "against all rows".
fn rules(record: &mut Record) {
    record.pass(&base::all());
    number(record, &rename(0x43, 8, b"1"), 12);
    number(record, &rename(0x44, 18, b"A3"), 13);
    number(record, &range(8, Some(2), Some(1)), 25);
    number(record, &range(8, Some(-2), Some(-3)), 25);
    number(record, &entry(0x49, 18, 0x15, 3), 17);
    number(record, &entry(0x49, 18, 0x17, 7), 18);
    number(record, &entry(0x49, 18, 0x17, 4), 19);
    number(record, &entry(0x49, 18, 0x19, 3), 20);
    number(record, &alter(0x48, 10, &[]), 18);
    number(record, &Row::attribute(15).arcs(&[2, 0x20, 3]).added(), 15);
    number(record, &Row::attribute(15).guid(0x30 << 64 | 7).added(), 16);
    number(
        record,
        &Row::class(19).category(3).set(0x17, &[19]).added(),
        18,
    );
    number(record, &Row::class(19).category(2).under(4).added(), 38);
    number(record, &Row::class(19).category(2).under(3).added(), 38);
    number(record, &Row::class(19).category(3).under(4).added(), 39);
    number(record, &Row::class(19).under(3).added(), 40);
    number(record, &Row::class(19).naming(1).added(), 23);
    number(record, &Row::attribute(15).link(9).added(), 29);
    number(record, &Row::attribute(15).arcs(&[1, 40]).added(), 14);
    number(record, &Row::attribute(15).mapi(4).added(), 24);
    number(record, &Row::attribute(15).syntax(9, 65).added(), 26);
    let wrong = Row::attribute(15).syntax(13, 127).with(0x08, &[1]);
    number(record, &wrong.added(), 27);
    number(record, &Row::attribute(15).link(5).added(), 28);
    number(record, &Row::attribute(15).link(6).added(), 45);
    number(record, &Row::attribute(15).syntax(9, 2).link(6).added(), 45);
}

/// 6: a table of 128 classes is full.
fn full(record: &mut Record) {
    record.pass(&chain(128));
    number(record, &Row::class(128).added(), 6);
    number(record, &Row::class(128).flags(0x10).added(), 6);
    record.quick(&Row::attribute(0).added(), (0, 1, 0));
    record.quick(&entry(0x49, 127, 0x15, 0), (0, 2, 127));
    record.quick(&entry(0x49, 0, 0x15, 0), (0, 2, 0));
    record.audit(PASSED);
    // All but row 0 in a loop, and row 0's sets as they were.
    record.poke(1, superclass(1), 127);
    record.quick(&rename(0x44, 127, b"last"), (0, 2, 127));
    record.quick(&entry(0x4A, 127, 0x15, 0), (0, 2, 127));
    record.depth(127, (18, 0, 0));
    record.audit((18, 2, 1));
}

/// Each kind of change done, on stores in order: they stay so.
fn done(record: &mut Record) {
    record.pass(&base::all());
    record.quick(&range(1, None, Some(3)), (0, 1, 1));
    record.quick(&range(1, Some(16), Some(16)), (0, 1, 1));
    record.quick(&range(8, Some(i32::MIN), Some(i32::MIN)), (0, 1, 8));
    record.quick(&rename(0x43, 8, b"A8"), (0, 1, 8));
    record.quick(&rename(0x44, 18, b"eighteen"), (0, 2, 18));
    record.quick(&alter(0x45, 8, &[]), (0, 1, 8));
    record.quick(&alter(0x47, 8, &[]), (0, 1, 8));
    record.quick(&alter(0x46, 9, &[]), (0, 2, 9));
    record.quick(&alter(0x48, 9, &[]), (0, 2, 9));
    record.quick(&rename(0x44, 9, b"nine"), (0, 2, 9));
    record.quick(&entry(0x49, 0, 0x15, 1), (0, 2, 0));
    record.quick(&entry(0x49, 18, 0x19, 18), (0, 2, 18));
    record.quick(&entry(0x49, 2, 0x17, 3), (0, 2, 2));
    record.quick(&entry(0x49, 3, 0x17, 2), (0, 2, 3));
    record.quick(&entry(0x49, 3, 0x15, 8), (0, 2, 3));
    record.audit(PASSED);
    record.quick(&entry(0x4A, 3, 0x17, 2), (0, 2, 3));
    record.quick(&entry(0x4A, 1, 0x17, 3), (0, 2, 1));
    record.quick(&entry(0x4A, 0, 0x15, 1), (0, 2, 0));
    record.quick(&entry(0x4A, 18, 0x19, 18), (0, 2, 18));
    record.audit(PASSED);
}

/// "An added class gets the union of its superclass's and auxiliaries' kept
/// sets, its own lists and itself": in order, what is worked out afresh.
fn added(record: &mut Record) {
    let row = Row::attribute(15).mapi(9).range(-3, -3);
    record.quick(&row.added(), (0, 1, 15));
    let class = Row::class(19).under(1).set(0x13, &[8]).set(0x14, &[4]);
    let class = class.set(0x15, &[5]).set(0x16, &[12]).set(0x17, &[15]);
    record.quick(&class.added(), (0, 2, 19));
    record.quick(
        &Row::class(20).category(3).set(0x13, &[1, 2]).added(),
        (0, 2, 20),
    );
    record.audit(PASSED);
}

/// 30: P10, P11, through superclass and auxiliaries of the auxiliary, and where
/// a removal takes a demand away.
fn demands(record: &mut Record) {
    record.pass(&base::all());
    number(record, &entry(0x49, 18, 0x17, 12), 30);
    number(record, &entry(0x49, 1, 0x17, 14), 30);
    number(record, &entry(0x49, 1, 0x17, 15), 30);
    record.quick(&entry(0x49, 1, 0x17, 12), (0, 2, 1));
    record.quick(&entry(0x49, 17, 0x17, 9), (0, 2, 17));
    record.quick(&entry(0x4A, 1, 0x17, 12), (0, 2, 1));
    number(record, &entry(0x4A, 15, 0x17, 13), 30);
    record.quick(&entry(0x49, 15, 0x17, 14), (0, 2, 15));
    record.quick(&entry(0x4A, 15, 0x17, 13), (0, 2, 15));
    number(record, &entry(0x4A, 15, 0x17, 14), 30);
    record.audit(PASSED);
}

/// "of the audit only shape", and "for the changed row alone": another row's
/// wrong name and other kept sets do not matter.
fn only_the_changed_row(record: &mut Record) {
    record.pass(&base::all());
    let old = record.poke(0, 2 + 189 + 1, b'1');
    record.audit((12, 1, 1));
    record.quick(&rename(0x43, 8, b"x"), (0, 1, 8));
    number(record, &range(1, None, None), 12);
    record.quick(&Row::class(19).added(), (0, 2, 19));
    record.poke(0, 2 + 189 + 1, old);
    record.poke(2, 10_239, 0xFF);
    record.poke(2, kept(4)[1], 0xFF);
    record.audit((3, 0, 0));
    record.quick(&rename(0x44, 4, b"four"), (0, 2, 4));
    record.quick(&alter(0x45, 12, &[]), (0, 1, 12));
    record.audit((3, 0, 0));
}

/// A chain that loops or leaves the table above the changed row: 22 "is not used
/// again", and the call "goes on to the next number whose condition holds"
/// (document 02, wish 7); 18 at the row itself. Sets are worked out afresh all
/// the same. Class 1 is under 2, itself or no row; 2 is under 1; 3 demands.
fn astray(record: &mut Record) {
    let (class, auxiliary) = (Row::class, |n| Row::class(n).category(3));
    let one = [Row::attribute(0), Row::attribute(1).single(), class(0)];
    let two = [class(1), class(2).under(1).set(0x17, &[4])];
    let rows = [
        &one[..],
        &two,
        &[auxiliary(3).set(0x13, &[0]), auxiliary(4)],
    ]
    .concat();
    for above in [2, 1, 100] {
        record.pass(&rows);
        record.poke(1, superclass(1), above);
        record.audit((18, 2, 1));
        record.depth(2, (18, 0, 0));
        record.plain(&rename(0x44, 2, b"x"), (3, 0, 0));
        number(record, &rename(0x44, 1, b"x"), 18);
        number(record, &rename(0x44, 2, b"1"), 12);
        record.quick(&rename(0x44, 2, b"x"), (0, 2, 2));
        record.quick(&entry(0x49, 2, 0x15, 0), (0, 2, 2));
        record.quick(&entry(0x49, 2, 0x19, 2), (0, 2, 2));
        number(record, &entry(0x49, 2, 0x17, 3), 30);
        number(record, &class(5).under(2).naming(0).added(), 23);
        number(record, &class(5).under(5).naming(0).added(), 18);
        let five = class(5).under(2).naming(1).set(0x13, &[0]);
        record.quick(&five.set(0x17, &[3]).added(), (0, 2, 5));
        record.quick(&class(6).under(1).set(0x17, &[3]).added(), (0, 2, 6));
        record.quick(&entry(0x4A, 2, 0x17, 4), (0, 2, 2));
        record.quick(&entry(0x4A, 2, 0x15, 0), (0, 2, 2));
        record.quick(&entry(0x4A, 5, 0x17, 3), (0, 2, 5));
        number(record, &entry(0x4A, 6, 0x17, 3), 30);
        record.quick(&alter(0x46, 6, &[]), (0, 2, 6));
        record.quick(&alter(0x48, 6, &[]), (0, 2, 6));
        record.depth(6, (18, 0, 0));
        record.audit((18, 2, 1));
    }
    record.poke(1, superclass(1), 0);
    record.poke(1, superclass(0), 5);
    record.quick(&rename(0x44, 2, b"y"), (0, 2, 2));
    number(record, &entry(0x49, 0, 0x15, 0), 18);
}

/// A row that breaks 38, 39 or 40: behind 18, before 30, though its number is
/// smaller; 12 before all. Another row's do not matter.
fn misfits(record: &mut Record) {
    record.pass(&base::all());
    number(record, &entry(0x49, 8, 0x17, 13), 30);
    for (above, own, rule) in [(1, 2, 38), (0, 2, 38), (1, 3, 39), (3, 1, 40)] {
        record.poke(1, category(4), above);
        record.poke(1, category(8), own);
        number(record, &rename(0x44, 8, b"x"), rule);
        number(record, &entry(0x49, 8, 0x15, 8), rule);
        number(record, &entry(0x49, 8, 0x17, 13), rule);
        number(record, &rename(0x44, 8, b"1"), 12);
        number(record, &alter(0x46, 8, &[]), rule);
        record.poke(1, superclass(4), 8);
        number(record, &rename(0x44, 8, b"x"), rule);
        record.poke(1, superclass(8), 9);
        number(record, &rename(0x44, 8, b"x"), 18);
        record.quick(&rename(0x44, 18, b"y"), (0, 2, 18));
        record.poke(1, superclass(4), 0);
        record.poke(1, superclass(8), 4);
    }
}

/// A linked row of a syntax that holds no names is refused whatever is asked of
/// it (45); the rows linked with it, and classes, are not.
fn linked(record: &mut Record) {
    let row = |number| Row::attribute(number);
    let attributes = [row(0).linked(2), row(1).linked(3), row(2), row(3).defunct()];
    record.pass(&[&attributes[..], &[Row::class(0)]].concat());
    let (syntax, link) = (2 + 151, 2 + 184);
    record.poke(0, 2 * 189 + link, 4);
    record.poke(0, 3 * 189 + link, 6);
    record.audit((45, 1, 2));
    number(record, &rename(0x43, 2, b"x"), 45);
    number(record, &range(2, None, None), 45);
    number(record, &alter(0x45, 2, &[]), 45);
    number(record, &alter(0x47, 3, &[]), 45);
    record.quick(&rename(0x43, 0, b"x"), (0, 1, 0));
    record.quick(&rename(0x44, 0, b"t"), (0, 2, 0));
    // Row 1 is the back link of row 2, which breaks 45; then of none.
    record.poke(0, 189 + link, 5);
    record.quick(&rename(0x43, 1, b"y"), (0, 1, 1));
    record.poke(0, 189 + link, 9);
    number(record, &rename(0x43, 1, b"z"), 29);
    // As 2.5.5.7 it has another syntax's oMObjectClass, and 27 comes first.
    record.poke(0, 189 + link, 3);
    record.poke(0, 189 + syntax, 7);
    number(record, &rename(0x43, 1, b"z"), 27);
}

/// "Rule 30 for an added auxiliary holds exactly when its kept mandatory set is
/// not within the target's", whatever the rows say.
fn demands_as_kept(record: &mut Record) {
    record.pass(&base::all());
    let [_, target, _] = kept(18);
    record.poke(2, target + 1, 0x02);
    record.quick(&entry(0x49, 18, 0x17, 12), (0, 2, 18));
    record.pass(&base::all());
    let [_, auxiliary, _] = kept(12);
    record.poke(2, auxiliary + 1, 0);
    record.quick(&entry(0x49, 18, 0x17, 12), (0, 2, 18));
    record.pass(&base::all());
    let [_, auxiliary, _] = kept(3);
    record.poke(2, auxiliary, 0x01);
    number(record, &entry(0x49, 18, 0x17, 3), 30);
    record.pass(&base::all());
    let [_, target, _] = kept(1);
    record.poke(2, target + 1, 0);
    number(record, &entry(0x49, 1, 0x17, 12), 30);
    record.quick(&entry(0x49, 18, 0x17, 9), (0, 2, 18));
}

/// An added class joins the kept sets of superclass and auxiliaries as they
/// stand; what stood in its own place is gone.
fn union_as_kept(record: &mut Record) {
    for class in [4, 12, 13] {
        record.pass(&base::all());
        for (byte, offset) in (1..).zip(kept(class)) {
            record.poke(2, offset + 1, byte << 4 | 2);
        }
        record.poke(2, kept(19)[2], 0x55);
        let added = Row::class(19).under(4).set(0x16, &[12]).set(0x17, &[13]);
        record.quick(&added.set(0x15, &[8]).added(), (0, 2, 19));
        record.audit((3, 0, 0));
    }
}

/// "An added auxiliary or optional attribute is joined in for every class whose
/// kept reach holds the target": by the kept reach, rows below the count alone,
/// and with the auxiliary's kept sets as they stand.
fn joined_as_kept(record: &mut Record) {
    let changes = [(0x15, 8), (0x17, 9), (0x19, 5)];
    for (list, other) in changes {
        record.pass(&base::all());
        record.poke(2, kept(5)[0] + 2, 0x04);
        record.poke(2, kept(17)[0], 0);
        record.poke(2, kept(19)[0] + 2, 0x06);
        record.poke(2, kept(9)[0] + 5, 0x80);
        record.poke(2, kept(9)[2] + 7, 0x80);
        record.quick(&entry(0x49, 18, list, other), (0, 2, 18));
        record.quick(&entry(0x49, 1, 0x15, 8), (0, 2, 1));
    }
    record.pass(&base::all());
    record.poke(2, kept(18)[0] + 2, 0);
    record.quick(&entry(0x49, 18, 0x15, 8), (0, 2, 18));
    record.audit((3, 0, 0));
}

/// "After a removal those are worked out afresh from the rows; its rule 30 holds
/// exactly when the target's mandatory set, afresh from the rows before and
/// after, differs."
fn removed_afresh(record: &mut Record) {
    for (list, other) in [(0x15, 11), (0x17, 3), (0x19, 5)] {
        record.pass(&base::all());
        for offset in kept(17) {
            record.poke(2, offset + 7, 0xFF);
        }
        record.poke(2, kept(1)[1], 0xFF);
        record.poke(2, kept(5)[0], 0x03);
        record.poke(2, kept(8)[1], 0xFF);
        record.quick(&entry(0x4A, 1, list, other), (0, 2, 1));
        record.audit((3, 0, 0));
        record.poke(2, kept(8)[1], 0);
        record.audit(PASSED);
    }
    record.pass(&base::all());
    record.poke(2, kept(15)[1], 0);
    record.poke(2, kept(15)[1] + 1, 0);
    number(record, &entry(0x4A, 15, 0x17, 13), 30);
}

/// "numbers without a row are passed over", where class 17 under 1 lists 100.
fn without_a_row(record: &mut Record) {
    record.pass(&base::all());
    let open_auxiliaries = 2 + 315 * 17 + 267;
    record.poke(1, open_auxiliaries + 12, 0x10);
    record.poke(1, 2 + 315 * 17 + 155 + 30, 0x01);
    record.quick(&entry(0x4A, 1, 0x15, 11), (0, 2, 1));
    record.audit((17, 2, 17));
    record.poke(1, 2 + 315 * 17 + 155 + 30, 0);
    record.audit((18, 2, 17));
    record.poke(1, open_auxiliaries + 12, 0);
    record.audit((3, 0, 0));
}

/// Row 0 added to an empty table over kept bytes that are not zero: what stands
/// at its superclass, itself, is joined.
fn first_class(record: &mut Record) {
    record.pass(&[]);
    for wrong in [0, 1, 3] {
        number(record, &Row::class(0).category(wrong).added(), 21);
    }
    record.quick(&Row::class(0).added(), (0, 2, 0));
    record.poke(1, category(0), 1);
    number(record, &rename(0x44, 0, b"x"), 21);
    record.quick(&Row::class(1).added(), (0, 2, 1));
    number(record, &Row::class(2).category(2).added(), 38);
    record.poke(1, category(0), 2);
    record.audit(PASSED);
    record.pass(&[]);
    record.poke(2, 1, 1);
    record.poke(2, 20, 1);
    record.poke(2, 50, 1);
    record.quick(&Row::class(0).added(), (0, 2, 0));
    record.audit((3, 0, 0));
}
