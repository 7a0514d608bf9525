//! `keeper check`: accepted with counts, or refused in words, and bad input.
#![allow(clippy::unwrap_used, clippy::expect_used)]

mod common;

use common::{done, fed, folder, kept, ran, refused};
use std::fs;

#[test]
fn a_schema_is_accepted_in_each_form() {
    let counts = "accepted: 57 attributes (17 base, 4 defunct), 25 classes (6 base, 2 defunct)\n";
    assert_eq!(
        done(&["check", "samples/forest.sheet"]),
        format!("samples/forest.sheet: {counts}")
    );
    assert_eq!(
        done(&["check", "samples/forest.schema"]),
        format!("samples/forest.schema: {counts}")
    );
    let sheet = fs::read("samples/forest.sheet").unwrap();
    assert_eq!(
        fed(&["check", "-"], &sheet).text(),
        format!("standard input: {counts}")
    );
}

/// A stray control byte makes no sheet of a text, and the ^Z with which DOS ends
/// one says nothing.
#[test]
fn a_text_may_hold_control_bytes() {
    let checked = |text: &str| fed(&["check", "-"], text.as_bytes());
    for text in [
        format!("{CN}{TOP}\x1A"),
        format!("{CN}# a \x07 bell\n{TOP}"),
    ] {
        let ran = checked(&text);
        assert_eq!((ran.code, ran.err.as_str()), (0, ""), "{text:?}");
    }
    let ran = checked(&format!("{CN}{TOP} \x07\n"));
    let words = "standard input: line 9: \\u{7}: not a line of this row\n";
    assert_eq!((ran.code, ran.err.as_str()), (2, words));
}

#[test]
fn the_accident_is_told_with_both_rivals() {
    let words = refused(1, &["check", "samples/refused.sheet"]);
    let expected = "samples/refused.sheet: refused
13, name taken: attribute 1 `areaHa` and attribute 2 `AreaHA`
  Two rows have one display name, case aside: A to Z count as a to z. The two
  may stand in either table, and defunct rows count. Both break the rule.
  Do: choose another name for one of the two. The place is the lowest of them,
  not the one that came last.
";
    assert_eq!(words, expected);
    let words = refused(1, &["check", "samples/refused.schema"]);
    assert!(
        words.starts_with("samples/refused.schema: refused, row at line 11\n13, name taken: "),
        "{words}"
    );
}

/// The first two lines of a refusal, without the file's name.
fn told(text: &str) -> String {
    let ran = fed(&["check", "-"], text.as_bytes());
    assert_eq!(ran.code, 1, "{text}: {}", ran.err);
    let lines: Vec<_> = ran.err.lines().take(2).collect();
    lines[1].to_owned()
}

const CN: &str =
    "attribute cn 2.5.4.3\n guid 00000000000000000000000000000001\n syntax 12 64\n single\n";
const TOP: &str =
    "class top 2.5.6.0\n guid 00000000000000000000000000000002\n abstract\n under top\n";

/// Attribute 1 with these lines, beside `cn` and `top`.
fn attribute(name: &str, lines: &str) -> String {
    let head = format!("attribute {name} 2.999.1\n guid 00000000000000000000000000000003\n");
    format!("{CN}{head} {}\n{TOP}", lines.replace(';', "\n "))
}

/// Class 1 with these lines, beside `cn` and `top`.
fn class(lines: &str) -> String {
    let head = "class stand 2.999.2\n guid 00000000000000000000000000000004\n";
    format!("{CN}{TOP}{head} {}\n", lines.replace(';', "\n "))
}

/// One more class with these lines.
fn site(lines: &str) -> String {
    let head = "class site 2.999.3\n guid 00000000000000000000000000000005\n";
    format!("{head} {}\n", lines.replace(';', "\n "))
}

#[test]
fn rules_of_attributes_are_told_with_what_breaks_them() {
    assert_eq!(
        told(&attribute("1area", "syntax 9 2")),
        "12, name invalid: attribute 1 `1area`: its name"
    );
    assert_eq!(
        told(&attribute("TOP", "syntax 9 2")),
        "13, name taken: attribute 1 `TOP` and class 0 `top`"
    );
    let text = attribute("age", "syntax 9 2").replace("2.999.1", "1.40");
    assert_eq!(
        told(&text),
        "14, identifier invalid: attribute 1 `age`: its identifier is 1.40"
    );
    let text = attribute("age", "syntax 9 2").replace("2.999.1", "2.5.6.0");
    let words = "15, identifier taken: attribute 1 `age`: identifier 2.5.6.0 of attribute 1 `age` and class 0 `top`";
    assert_eq!(told(&text), words);
    let text = attribute("age", "syntax 9 2").replace("0003\n", "0001\n");
    let words = "16, guid taken: attribute 0 `cn`: GUID 00000000000000000000000000000001 of attribute 0 `cn` and attribute 1 `age`";
    assert_eq!(told(&text), words);
    let text = attribute("age", "syntax 9 2;lower 6;upper 5");
    assert_eq!(
        told(&text),
        "25, range crossed: attribute 1 `age`: its range is 6 to 5"
    );
    let text = attribute("age", "syntax 9 65");
    assert_eq!(
        told(&text),
        "26, syntax misfit: attribute 1 `age`: attributeSyntax 2.5.5.9 with oMSyntax 65"
    );
    let text = attribute("age", "syntax 1 127;object 00ff");
    let words = "27, object class wrong: attribute 1 `age`: attributeSyntax 2.5.5.1 with oMObjectClass 00FF";
    assert_eq!(told(&text), words);
    let text = attribute("age", "syntax 1 127;link 5");
    assert_eq!(
        told(&text),
        "29, link alone: attribute 1 `age`: linkID 5, and no attribute has 4"
    );
    let text = attribute("age", "syntax 9 2;link 4");
    let words = "45, link syntax unfit: attribute 1 `age`: linkID 4 with attributeSyntax 2.5.5.9, and an even one needs 2.5.5.1, 2.5.5.7 or 2.5.5.14";
    assert_eq!(told(&text), words);
    let back = attribute("age", "syntax 7 127;link 5");
    let text = back.replacen("syntax 12 64\n single", "syntax 1 127\n link 4", 1);
    let words = "45, link syntax unfit: attribute 1 `age`: linkID 5 with attributeSyntax 2.5.5.7, and an odd one needs 2.5.5.1";
    assert_eq!(told(&text), words);
}

#[test]
fn shared_numbers_are_told_with_their_rivals() {
    for (line, name) in [
        ("mapi 7", "24, mapi taken: attribute 0 `cn`: mAPIID 7"),
        ("link 4", "28, link taken: attribute 0 `cn`: linkID 4"),
    ] {
        let text = attribute("age", &format!("syntax 9 2;{line}"));
        let text = text.replacen(" single", &format!(" single\n {line}"), 1);
        assert_eq!(
            told(&text),
            format!("{name} of attribute 0 `cn` and attribute 1 `age`")
        );
    }
}

#[test]
fn rules_of_classes_are_told_with_what_breaks_them() {
    let text = class("structural;under top;must cn").replacen("single", "defunct", 1);
    let words = "17, attribute not live: class 1 `stand`: it names attribute 0 `cn`, which is defunct, in its mandatory attributes";
    assert_eq!(told(&text), words);
    let text = class("structural;under stand");
    let words = "18, class not live: class 1 `stand`: it names class 1 `stand`, which does not come before it, as superclass";
    assert_eq!(told(&text), words);
    let text = class("structural;under top;aux top");
    let words = "19, not an auxiliary: class 1 `stand`: its open auxiliary classes hold class 0 `top`, which is abstract";
    assert_eq!(told(&text), words);
    let text = class("structural;under top;system-in top");
    let words = "20, not a superior: class 1 `stand`: its fixed possible superiors hold class 0 `top`, which is abstract";
    assert_eq!(told(&text), words);
    for (own, kind) in [("auxiliary", "auxiliary"), ("88", "an 88 class")] {
        let text = class("structural;under top").replacen("abstract", own, 1);
        let detail = format!("it is {kind}, and class 0 must be abstract");
        assert_eq!(
            told(&text),
            format!("21, root not abstract: class 0 `top`: {detail}")
        );
    }
    for (own, above, words) in [
        ("abstract", "structural", "38, abstract under other"),
        ("abstract", "auxiliary", "38, abstract under other"),
        ("abstract", "88", "38, abstract under other"),
        ("auxiliary", "structural", "39, auxiliary under structural"),
        ("structural", "auxiliary", "40, structural under auxiliary"),
    ] {
        let text = class(&format!("{above};under top")) + &site(&format!("{own};under stand"));
        let kind = if above == "88" { "an 88 class" } else { above };
        let detail = format!("it is {own}, and its superclass, class 1 `stand`, is {kind}");
        assert_eq!(told(&text), format!("{words}: class 2 `site`: {detail}"));
    }
    let text = class("structural;under top;naming cn").replacen(" single\n", "", 1);
    let words = "23, naming unfit: class 1 `stand`: it is named by attribute 0 `cn`, of syntax 2.5.5.12, multi-valued";
    assert_eq!(told(&text), words);
}

#[test]
fn an_unreadable_sheet_is_told_by_row_field_and_bytes() {
    let folder = folder("check");
    let sheet = fs::read("samples/forest.sheet").unwrap();
    let cut = kept(&folder, "cut.sheet", &sheet[..3000]);
    let words = refused(1, &["check", &cut]);
    let line = words.lines().nth(1).unwrap();
    let expected = "4, unreadable: byte 2910 of 3000, at the tag of attribute 29: 112 bytes are announced, 87 are there";
    assert_eq!(line, expected);
    assert!(
        words.contains(
            "\n      2896 | 0A  00  04  00  00  00  01  0B  00  04  00  00  00  3C [20] 00\n"
        ),
        "{words}"
    );
    let long = attribute(&"a".repeat(70), "syntax 9 2");
    assert!(
        fed(&["check", "-"], long.as_bytes())
            .err
            .starts_with("standard input: refused, row at line 5\n")
    );
    let line = told(&long);
    let expected = "4, unreadable: byte 71 of ";
    assert!(line.starts_with(expected), "{line}");
    assert!(
        line.ends_with("`: field 01, display name (70 bytes); its length may be: 0 to 64; its value: any bytes; which names are valid is for rule 12"),
        "{line}"
    );
    let _ = fs::remove_dir_all(folder);
}

#[test]
fn an_unreadable_value_is_told_with_what_it_may_be() {
    let ends = |text: &str, words: &str| {
        let line = told(text);
        assert!(
            line.starts_with("4, unreadable: ") && line.ends_with(words),
            "{line}"
        );
    };
    let words = "in attribute 1 `age`: field 0C, linkID (4 bytes); its length may be: 4; its value: not zero; \
                 even: a forward link, of attributeSyntax 1, 7 or 14; odd: a back link, of 1 (rules 29 and 45)";
    ends(&attribute("age", "syntax 9 2;link 0"), words);
    let ldif = "dn: CN=top\nlDAPDisplayName: top\ngovernsID: 2.5.6.0\nschemaIDGUID:: t3qWv+YN0BGihQCqADBJ4g==
subClassOf: top\nobjectClassCategory: 7\n";
    let words = "in class 0 `top`: field 10, category (1 byte); its length may be: 1; \
                 its value: 0 88 class, 1 structural, 2 abstract, 3 auxiliary";
    ends(ldif, words);
}

/// A field of less than 256 bytes.
fn field(tag: u8, value: &[u8]) -> Vec<u8> {
    let length = u8::try_from(value.len()).unwrap();
    [&[tag, 0, length], value].concat()
}

#[test]
fn rows_fields_and_entries_out_of_order_are_told() {
    let told = |fields: &[&[u8]]| {
        let ran = fed(&["check", "-"], &fields.concat());
        assert_eq!(ran.code, 1);
        ran.err.lines().nth(1).unwrap().to_owned()
    };
    let common = [
        field(0x01, b"top"),
        field(0x02, &[0; 4]),
        field(0x03, &[0; 16]),
        field(0x04, &[0; 4]),
    ];
    let top = [common.concat(), field(0x10, &[2]), field(0x11, &[0, 0])].concat();
    let heading = field(0x01, &[1]);
    let row = |fields: &[&[u8]]| field(0x30, &fields.concat());
    let falling = row(&[&top, &field(0x19, &[0, 1, 0, 0])]);
    let words = "4, unreadable: byte 55 of 62, in class 0 `top`: field 19, open possible superiors (4 bytes); \
                 its length may be: 2 for each entry; its value: class numbers below 128, each greater than the one before";
    assert_eq!(told(&[&heading, &falling]), words);
    let swapped = row(&[&common[1], &common[0]]);
    let words = "4, unreadable: byte 14 of 20, in class 0 `top`: field 01, display name (3 bytes); \
                 it stands behind field 02, and tags must rise; its length may be: 0 to 64; \
                 its value: any bytes; which names are valid is for rule 12";
    assert_eq!(told(&[&heading, &swapped]), words);
    let late = field(0x20, &[]);
    let words = "4, unreadable: byte 55 of 58, at the tag of attribute 0, behind a class";
    assert_eq!(told(&[&heading, &row(&[&top]), &late]), words);
    let words = "4, unreadable: byte 4 of 8, at the heading, a second time";
    assert_eq!(told(&[&heading, &heading]), words);
}

#[test]
fn missing_fields_and_leftover_bytes_are_told() {
    let told = |sheet: &[u8]| {
        let ran = fed(&["check", "-"], sheet);
        assert_eq!(ran.code, 1);
        ran.err.lines().nth(1).unwrap().to_owned()
    };
    let heading = [1, 0, 1, 1];
    let with = |bytes: &[u8]| [&heading, bytes].concat();
    let words = "4, unreadable: byte 7 of 7, in attribute 0: its end, and it has no display name, object identifier, schemaIDGUID, systemFlags, attributeSyntax and oMSyntax";
    assert_eq!(told(&with(&[0x20, 0, 0])), words);
    assert_eq!(
        told(&with(&[0x20, 0])),
        "4, unreadable: byte 4 of 6, where two bytes are left over that are no field"
    );
    assert_eq!(
        told(&with(&[0x21, 0, 0])),
        "4, unreadable: byte 4 of 7, at the tag 21, which no field of a sheet has"
    );
    assert_eq!(
        told(&heading[..3]),
        "4, unreadable: byte 0 of 3, at the heading: 1 bytes are announced, 0 are there"
    );
    let sheet = std::fs::read("samples/forest.sheet").unwrap();
    let end = sheet.len() - 4;
    let words =
        format!("4, unreadable: byte {end} of {end}, the end of the sheet: the heading is missing");
    assert_eq!(told(&sheet[4..]), words);
}

#[test]
fn more_rows_than_fit_are_told() {
    let row = |at: usize| format!("attribute a{at} 2.999.{at}\n guid {at:032x}\n syntax 9 2\n");
    let text: String = (0..300).map(row).collect();
    let words = "6, no free row: 300 attributes, and there is room for 256: the first without is attribute 256 `a256`";
    assert_eq!(told(&text), words);
    // Also where a row names one that has no room, which no field can say.
    let row = |at: usize| {
        let under = if at == 149 { "c148" } else { "c0" };
        format!("class c{at} 2.999.{at}\n guid {at:032x}\n structural\n under {under}\n")
    };
    let text: String = (0..150).map(row).collect();
    let text = text.replacen("under c0\nclass c2 ", "under c0\n in c140\nclass c2 ", 1);
    let words = "6, no free row: 150 classes, and there is room for 128: the first without is class 128 `c128`";
    assert_eq!(told(&text), words);
    let ran = fed(&["check", "-"], text.as_bytes());
    assert!(
        ran.err
            .starts_with("standard input: refused, row at line 514\n"),
        "{}",
        ran.err
    );
}

#[test]
fn what_is_no_schema_is_told() {
    let folder = folder("bad");
    let missing = folder.join("none").to_string_lossy().into_owned();
    assert!(refused(2, &["check", &missing]).contains("cannot be read: No such file or directory"));
    let place = folder.to_string_lossy().into_owned();
    assert!(refused(2, &["check", &place]).contains("cannot be read: Is a directory"));
    let empty = kept(&folder, "empty", b"");
    assert_eq!(
        refused(2, &["check", &empty]),
        format!("{empty}: is empty, so it holds no schema\n")
    );
    let huge = kept(&folder, "huge", &vec![b'#'; (16 << 20) + 1]);
    assert_eq!(
        refused(2, &["check", &huge]),
        format!("{huge}: is longer than 16777216 bytes, so it is no schema\n")
    );
    let text = kept(&folder, "text", b"Dear forester,\nthe areas are wrong.\n");
    assert_eq!(
        refused(2, &["check", &text]),
        format!("{text}: line 1: Dear: no row before it\n")
    );
    let binary = kept(&folder, "binary", &[0xFF, 0x00, 0x7F, 0x80]);
    assert!(refused(1, &["check", &binary]).contains("4, unreadable: byte 0 of 4"));
    let _ = fs::remove_dir_all(folder);
}

#[test]
fn wrong_words_are_told_with_the_usage() {
    assert_eq!(
        refused(2, &["check"]),
        "something is missing; it is: keeper check FILE\n"
    );
    assert_eq!(
        refused(2, &["check", "a", "b"]),
        "too many words; it is: keeper check FILE\n"
    );
    assert_eq!(
        refused(2, &["check", "--fast", "a"]),
        "--fast: no such option; this command has none but --help\n"
    );
    assert!(refused(2, &["chek"]).starts_with("chek: no such command; there are check, list, "));
    assert_eq!(ran(&[]).code, 2);
    assert_eq!(ran(&["--help"]).code, 0);
}
