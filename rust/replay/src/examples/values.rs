//! Rules 24 to 29 and 45, which bind attribute rows alone.

use super::record::Record;
use super::rows::{Row, sheet};

/// All of them.
pub fn examples(record: &mut Record) {
    taken(record, 24, |number, value| {
        Row::attribute(number).mapi(value)
    });
    ranges(record);
    right_syntaxes(record);
    wrong_syntaxes(record);
    object_classes(record);
    wrong_object_classes(record);
    dropped_object_classes(record);
    taken(record, 28, |number, value| {
        Row::attribute(number).linked(value)
    });
    odd_links_taken(record);
    links(record);
    defunct_links(record);
    link_syntaxes(record);
    link_syntax_last(record);
}

/// A present mAPIID, and likewise a linkID, is taken: by active and defunct
/// rivals; absent ones are not, nor is the other number of another row.
fn taken(record: &mut Record, rule: u64, with: fn(u16, u32) -> Row) {
    for value in [2, 0x1_0000, u32::MAX - 1] {
        record.both(&[with(0, value), with(1, value)], 0, (rule, 1, 0));
        record.both(&[with(0, value), with(1, value)], 1, (rule, 1, 0));
    }
    let rows = [Row::attribute(0), with(1, 2), with(2, 2)];
    record.both(&rows, 2, (rule, 1, 1));
    record.pass(&[with(0, 2), with(1, 4), with(2, 0x1_0002), Row::attribute(3)]);
    record.pass(&[Row::attribute(0).mapi(2), Row::attribute(1).linked(2)]);
    record.pass(&[Row::attribute(0), Row::attribute(1)]);
}

/// P4, P5 and their neighbours: signed, only where both ends are present, and
/// "both negative and equal passes too" (document 02, wish 1).
fn ranges(record: &mut Record) {
    let row = Row::attribute;
    let (least, most) = (i32::MIN, i32::MAX);
    for (lower, upper) in [(6, 5), (0, -1), (-2, -3), (most, least), (1, 0)] {
        record.both(&[row(0).range(lower, upper)], 0, (25, 1, 0));
    }
    for end in [5, 16, 0, -3, least, most] {
        record.pass(&[row(0).range(end, end)]);
    }
    record.pass(&[row(0).range(-1, -1).defunct()]);
    record.rows(&[row(0).range(5, 5), row(1).range(6, 5)], (25, 1, 1));
    for (lower, upper) in [
        (-1, 0),
        (least, most),
        (5, 6),
        (-2, -1),
        (-1, 1),
        (0, 70_000),
    ] {
        record.pass(&[row(0).range(lower, upper)]);
    }
    for end in [0, 1, least as u32, most as u32] {
        record.pass(&[row(0).number(0x0A, end)]);
        record.pass(&[row(0).number(0x0B, end)]);
    }
}

/// Every pair that rule 26 names, as document 01 writes them.
pub const PAIRS: [(u8, u8); 20] = [
    (1, 127),
    (2, 6),
    (3, 27),
    (4, 20),
    (5, 19),
    (5, 22),
    (6, 18),
    (7, 127),
    (8, 1),
    (9, 2),
    (9, 10),
    (10, 4),
    (11, 23),
    (11, 24),
    (12, 64),
    (13, 127),
    (14, 127),
    (15, 66),
    (16, 65),
    (17, 4),
];

/// All of them in one sheet, some single-valued.
fn right_syntaxes(record: &mut Record) {
    let row = |(number, (syntax, om_syntax))| Row::attribute(number).syntax(syntax, om_syntax);
    let rows: Vec<Row> = (0..).zip(PAIRS).map(row).collect();
    record.pass(&rows);
}

/// P3, and for each syntax the numbers beside its own, 64 and 127; also 0 and
/// 18, which are no syntaxes.
fn wrong_syntaxes(record: &mut Record) {
    let row = |(syntax, om_syntax)| Row::attribute(0).syntax(syntax, om_syntax);
    let beside = PAIRS.iter().flat_map(|(syntax, right)| {
        let others = [right - 1, right + 1, 64];
        others.map(|om_syntax| (*syntax, om_syntax))
    });
    let more = [
        (9, 65),
        (9, 3),
        (5, 20),
        (5, 21),
        (4, 22),
        (17, 66),
        (10, 2),
        (2, 127),
    ];
    let none = [
        (0, 64),
        (18, 64),
        (0, 0),
        (18, 127),
        (140, 64),
        (12, 4),
        (12, 127),
    ];
    for pair in beside.chain(more).chain(none) {
        if !PAIRS.contains(&pair) {
            record.rows(&[row(pair)], (26, 1, 0));
        }
    }
    record.both(
        &[
            Row::attribute(0),
            row((4, 64)).named("x").arcs(&[2, 1]).guid(1),
        ],
        1,
        (26, 1, 1),
    );
}

/// The right oMObjectClasses of 1, 7, 13 and 14, the first of each the one that
/// is stored where none is given.
const RIGHT: [(u8, &[u8]); 6] = [
    (1, b"\x2B\x0C\x02\x87\x73\x1C\x00\x85\x4A"),
    (7, b"\x56\x06\x01\x02\x05\x0B\x1D"),
    (7, b"\x2A\x86\x48\x86\xF7\x14\x01\x01\x01\x0B"),
    (13, b"\x2B\x0C\x02\x87\x73\x1C\x00\x85\x5C"),
    (14, b"\x2B\x0C\x02\x87\x73\x1C\x00\x85\x3E"),
    (14, b"\x2A\x86\x48\x86\xF7\x14\x01\x01\x01\x0C"),
];

fn object(syntax: u8) -> Row {
    Row::attribute(0).syntax(syntax, 127)
}

/// Given and absent; what is stored is written back.
fn object_classes(record: &mut Record) {
    for (syntax, right) in RIGHT {
        record.pass(&[object(syntax).with(0x08, right)]);
        record.pass(&[object(syntax)]);
        record.pass(&[object(syntax).defunct()]);
        let first = RIGHT.iter().find(|(other, _)| *other == syntax);
        let stored = first.map_or(0, |(_, first)| first.len() as u64);
        let length = 4 + object(syntax).length() + 3 + stored + 3;
        record.write(300, (0, 0, length));
    }
}

/// Each right value of another syntax, a value cut, lengthened, and with its
/// first or last byte changed.
fn wrong_object_classes(record: &mut Record) {
    let syntaxes = [1, 7, 13, 14];
    let pairs = syntaxes.map(|syntax| RIGHT.map(|(_, value)| (syntax, value)));
    for (syntax, value) in pairs.concat() {
        if !RIGHT.contains(&(syntax, value)) {
            record.rows(&[object(syntax).with(0x08, value)], (27, 1, 0));
        }
    }
    for (syntax, right) in RIGHT {
        let (mut first, mut last) = (right.to_vec(), right.to_vec());
        first[0] ^= 1;
        last[right.len() - 1] ^= 1;
        let cut = right[..right.len() - 1].to_vec();
        for wrong in [first, last, cut, [right, &[0]].concat()] {
            record.rows(&[object(syntax).with(0x08, &wrong)], (27, 1, 0));
        }
        record.rows(&[object(syntax).with(0x08, &[1]).defunct()], (27, 1, 0));
    }
}

/// "With any other oMSyntax it is read and dropped": the row is written without
/// it. Up to 16 bytes can be read; with 127 they are stored, and 26 comes first.
fn dropped_object_classes(record: &mut Record) {
    let plain = Row::attribute(0);
    for value in [&[1][..], RIGHT[0].1, &[7; 16]] {
        record.pass(&[plain.clone().with(0x08, value)]);
        record.write(100, (0, 0, 4 + plain.length()));
        record.rows(&[object(12).with(0x08, value)], (26, 1, 0));
    }
    record.rows(&[object(1).with(0x08, &[7; 16])], (27, 1, 0));
    for value in [&[7; 17][..], &[]] {
        let rows = [plain.clone().with(0x08, value)];
        record.load(&sheet(&rows), (4, 0, 4 + plain.length()));
    }
}

/// Of two odd linkIDs that are the same 28 tells, since it comes before 29.
fn odd_links_taken(record: &mut Record) {
    let row = |number, link| Row::attribute(number).linked(link);
    record.both(&[row(0, 2), row(1, 3), row(2, 3)], 1, (28, 1, 1));
    record.both(&[row(0, 2), row(1, 3), row(2, 3)], 2, (28, 1, 1));
    record.rows(&[row(0, 1), row(1, 1)], (28, 1, 0));
    let mapi = |number, mapi| Row::attribute(number).mapi(mapi);
    record.both(&[mapi(0, 3), mapi(1, 3)], 1, (24, 1, 0));
    record.pass(&[mapi(0, 3), mapi(1, 1), mapi(2, 5)]);
}

/// P6 and its neighbours: the number one less, wherever it stands.
fn links(record: &mut Record) {
    let row = |number, link| Row::attribute(number).linked(link);
    record.both(&[row(0, 1)], 0, (29, 1, 0));
    record.both(&[row(0, 1), Row::attribute(1)], 0, (29, 1, 0));
    record.pass(&[row(0, 2)]);
    record.pass(&[row(0, 2), row(1, 3)]);
    record.pass(&[row(0, 3), row(1, 2)]);
    record.both(&[row(0, 3)], 0, (29, 1, 0));
    record.both(&[row(0, 4), row(1, 3)], 1, (29, 1, 1));
    record.both(&[row(0, 2), row(1, 5)], 1, (29, 1, 1));
    record.both(
        &[row(0, 2), Row::attribute(1).mapi(4), row(2, 5)],
        2,
        (29, 1, 2),
    );
    record.pass(&[row(0, u32::MAX - 1), row(1, u32::MAX)]);
    record.rows(&[row(0, u32::MAX)], (29, 1, 0));
    record.pass(&[row(0, 4)]);
}

/// "live": an active back link needs an active forward link, a defunct one any.
fn defunct_links(record: &mut Record) {
    let row = |number, link| Row::attribute(number).linked(link);
    record.rows(&[row(0, 2).defunct(), row(1, 3)], (29, 1, 1));
    record.pass(&[row(0, 2).defunct(), row(1, 3).defunct()]);
    record.pass(&[row(0, 2), row(1, 3).defunct()]);
}

/// "a present even linkID needs 2.5.5.1, 2.5.5.7 or 2.5.5.14, an odd one
/// 2.5.5.1" (document 02, wish 8): each pair of syntaxes, in active and defunct
/// rows, each row by itself; without a linkID any.
fn link_syntaxes(record: &mut Record) {
    let forward = Row::attribute(0).linked(2);
    for (syntax, om_syntax) in PAIRS {
        let row = |number, link| Row::attribute(number).syntax(syntax, om_syntax).link(link);
        match syntax {
            1 | 7 | 14 => record.pass(&[row(0, 2)]),
            _ => record.both(&[row(0, 2)], 0, (45, 1, 0)),
        }
        match syntax {
            1 => record.pass(&[forward.clone(), row(1, 3)]),
            _ => record.both(&[forward.clone(), row(1, 3)], 1, (45, 1, 1)),
        }
    }
    for syntax in [7, 14] {
        let row = |number, link| object(syntax).named("x").guid(number).link(link);
        record.pass(&[row(7, 2), Row::attribute(1).linked(3)]);
        record.pass(&[row(7, u32::MAX - 1)]);
        record.pass(&[row(7, 2).defunct(), Row::attribute(1).linked(3).defunct()]);
    }
}

/// "a schema rule after 29": linkID 1 is 29 whatever its syntax, and 28 and 29
/// of a later row go before.
fn link_syntax_last(record: &mut Record) {
    let wrong = |number, link| Row::attribute(number).link(link);
    let right = |number, link| Row::attribute(number).linked(link);
    record.both(&[wrong(0, 1)], 0, (29, 1, 0));
    record.rows(&[wrong(0, 3)], (29, 1, 0));
    record.rows(&[wrong(0, 2), right(1, 5)], (29, 1, 1));
    record.rows(&[wrong(0, 2), right(1, 4), right(2, 4)], (28, 1, 1));
    record.rows(&[wrong(0, 2), right(1, 3)], (45, 1, 0));
    record.rows(&[right(0, 2), wrong(1, 4), wrong(2, 3)], (45, 1, 1));
    record.rows(&[wrong(0, u32::MAX - 1)], (45, 1, 0));
    let class = Row::class(1).category(2).under(2);
    let rows = [wrong(0, 2), Row::class(0), class, Row::class(2)];
    record.rows(&rows, (18, 2, 1));
    record.rows(&[wrong(0, 2), Row::class(0).naming(0)], (23, 2, 0));
}
