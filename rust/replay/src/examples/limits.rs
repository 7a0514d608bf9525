//! Full tables: 255, 256 and 257 attributes, 127, 128 and 129 classes.

use super::record::{PASSED, Record};
use super::rows::{ATTRIBUTE, CLASS, HEADING, Row, alter, entry, rename, rows, sheet};

/// Rows that can be read, and no more.
fn bare(tag: u8, count: usize) -> Vec<u8> {
    Row::bare(tag).bytes().repeat(count)
}

/// A table of 256 attributes, full by load and by change.
pub fn attributes(record: &mut Record) {
    attributes_added(record);
    attributes_loaded(record);
    attributes_refused(record);
}

/// 255 rows and one more fit; the next is refused, in any state, but 4 first.
fn attributes_added(record: &mut Record) {
    let all: Vec<Row> = (0..255).map(Row::attribute).collect();
    record.pass(&all);
    record.plain(&Row::attribute(255).added(), (0, 1, 255));
    let more = Row::attribute(256);
    record.refused(&more.added(), 6);
    record.refused(&more.clone().flags(0x10).added(), 6);
    record.refused(&more.clone().named("").added(), 6);
    let short = more.without(0x03);
    record.plain(&short.added(), (4, 0, short.length()));
    record.plain(&rename(0x43, 255, b"last"), (0, 1, 255));
    record.refused(&rename(0x43, 255, b"A254"), 13);
    record.refused(&rename(0x43, 256, b"x"), 5);
    record.audit(PASSED);
}

/// 256 rows are loaded; a class names the last.
fn attributes_loaded(record: &mut Record) {
    let mut all: Vec<Row> = (0..255).map(Row::attribute).collect();
    all.push(Row::attribute(255).single());
    let class = Row::class(0).naming(255).set(0x13, &[0, 255]);
    all.push(class.set(0x14, &[254, 255]).set(0x15, &[7, 8, 255]));
    record.pass(&all);
    record.write(65_536, (0, 0, sheet(&all).len() as u64));
    record.refused(&alter(0x45, 255, &[]), 11);
    record.plain(&entry(0x4A, 0, 0x15, 255), (0, 2, 0));
    record.plain(&alter(0x45, 253, &[]), (0, 1, 253));
    record.audit(PASSED);
    record.refused(&Row::attribute(256).added(), 6);
}

/// "no free row; at load, told at the row's tag, before any 4 there, with table
/// and limit": the 257th unreadable inside; without heading, after a class row
/// and cut to its tag.
fn attributes_refused(record: &mut Record) {
    let full = bare(ATTRIBUTE, 256);
    let (class, empty) = (Row::bare(CLASS).bytes(), [ATTRIBUTE, 0, 0]);
    record.load(&[&HEADING[..], &full, &empty].concat(), (6, 1, 256));
    let late = [&full[..], &class, &[ATTRIBUTE]].concat();
    record.load(&late, (6, 1, 256));
}

/// The same with a heading: sound, cut to its tag, cut in its value, out of
/// order behind a class row, and with a length past the end.
pub fn overfull(record: &mut Record) {
    let full = [&HEADING[..], &bare(ATTRIBUTE, 256)].concat();
    let (sound, class) = (Row::bare(ATTRIBUTE).bytes(), Row::bare(CLASS).bytes());
    let late = [&class[..], &sound].concat();
    for more in [
        &sound[..],
        &[ATTRIBUTE],
        &sound[..9],
        &late,
        &[ATTRIBUTE, 255, 255],
    ] {
        record.load(&[&full[..], more].concat(), (6, 1, 256));
    }
}

/// A table of 128 classes.
pub fn classes(record: &mut Record) {
    classes_added(record);
    classes_loaded(record);
    classes_refused(record);
    classes_late(record);
}

/// A chain: each class under the one before.
pub fn chain(count: u16) -> Vec<Row> {
    let class = |number: u16| Row::class(number).under(number.saturating_sub(1));
    (0..count).map(class).collect()
}

/// 127 rows and one more fit, at the end of the longest chain.
fn classes_added(record: &mut Record) {
    let all = [rows(&[Row::attribute(0)]), rows(&chain(127))].concat();
    record.load(&[&HEADING[..], &all].concat(), PASSED);
    record.plain(
        &Row::class(127).under(126).set(0x19, &[126]).added(),
        (0, 2, 127),
    );
    record.depth(127, (0, 0, 127));
    record.depth(126, (0, 0, 126));
    let more = Row::class(128).under(0);
    record.refused(&more.added(), 6);
    record.refused(&more.clone().flags(0x10).added(), 6);
    record.refused(&more.clone().set(0x13, &[9]).added(), 6);
    let short = more.without(0x11);
    record.plain(&short.added(), (4, 0, short.length()));
    record.plain(&entry(0x49, 0, 0x15, 0), (0, 2, 0));
    record.refused(&entry(0x49, 0, 0x19, 128), 18);
    record.audit(PASSED);
}

/// 128 rows are loaded; the last is named in every list.
fn classes_loaded(record: &mut Record) {
    let mut all = chain(127);
    all[1] = all[1].clone().set(0x16, &[127]).set(0x17, &[127]);
    all[2] = all[2].clone().set(0x18, &[3, 127]).set(0x19, &[126, 127]);
    all.push(Row::class(127).category(0));
    record.pass(&all);
    record.write(65_536, (0, 0, sheet(&all).len() as u64));
    record.refused(&alter(0x46, 127, &[]), 11);
    record.plain(&entry(0x4A, 1, 0x17, 127), (0, 2, 1));
    record.plain(&rename(0x44, 127, b"last"), (0, 2, 127));
    record.refused(&Row::class(128).added(), 6);
    record.audit(PASSED);
}

/// The 129th: sound, cut to its tag, cut in its value, unreadable inside.
fn classes_refused(record: &mut Record) {
    let full = [&HEADING[..], &bare(CLASS, 128)].concat();
    let sound = Row::bare(CLASS).bytes();
    for more in [&sound[..], &[CLASS], &sound[..9], &[CLASS, 0, 0]] {
        record.load(&[&full[..], more].concat(), (6, 2, 128));
    }
}

/// Without heading too; but the 128th is refused before the next tag is looked
/// at, and another tag than the full table's is told by 4.
fn classes_late(record: &mut Record) {
    let full = bare(CLASS, 128);
    record.load(&[&full[..], &[CLASS, 0]].concat(), (6, 2, 128));
    let short = Row::bare(CLASS).without(0x11).bytes();
    let most = [&HEADING[..], &bare(CLASS, 127), &short].concat();
    let end = most.len() as u64;
    record.load(
        &[&most[..], &Row::bare(CLASS).bytes()].concat(),
        (4, 0, end),
    );
    let whole = [&HEADING[..], &full, &Row::bare(ATTRIBUTE).bytes()].concat();
    record.load(&whole, (4, 0, 4 + full.len() as u64));
}
