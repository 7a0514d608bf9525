//! `keeper change`: each kind of change, refusals in words, all or nothing.
#![allow(clippy::unwrap_used, clippy::expect_used)]

mod common;

use common::{Ran, copied, done, fed, folder, kept, ran, refused};
use std::fs;

/// Makes changes to a copy of the forest and gives what was said, the file's name
/// left out, and the file afterwards.
fn changed(sample: &str, words: &[&str]) -> (Ran, Vec<u8>) {
    let thread = format!("{:?}", std::thread::current().id());
    let number: String = thread.chars().filter(char::is_ascii_digit).collect();
    let folder = folder(&format!("change-{number}"));
    let file = copied(&folder, sample);
    let mut all = vec!["change"];
    let (options, changes): (Vec<&str>, Vec<&str>) =
        words.iter().partition(|word| word.starts_with("--"));
    all.extend(options);
    all.push(&file);
    all.extend(changes);
    let mut ran = ran(&all);
    ran.out = ran.text().replace(&file, "FILE").into_bytes();
    ran.err = ran.err.replace(&file, "FILE");
    let bytes = fs::read(&file).unwrap();
    let left: Vec<_> = fs::read_dir(&folder).unwrap().collect();
    assert_eq!(left.len(), 1, "only the file is left");
    let _ = fs::remove_dir_all(folder);
    (ran, bytes)
}

/// What one change says, and that the file is changed exactly if it is made. The
/// exit code is 2 where the keeper was not asked.
fn said(change: &str) -> String {
    let mut lines = Vec::new();
    for (sample, options) in [("forest.sheet", vec![]), ("forest.schema", vec!["--whole"])] {
        let words: Vec<&str> = options.into_iter().chain([change]).collect();
        let (ran, bytes) = changed(sample, &words);
        let is_same = bytes == fs::read(format!("samples/{sample}")).unwrap();
        let text = ran.text();
        let (line, end) = text.split_once("\nFILE: ").unwrap();
        let expected = if ran.code == 0 {
            "saved\n"
        } else {
            "nothing is changed\n"
        };
        assert_eq!(end, expected, "{text}");
        assert_eq!(is_same, ran.code != 0, "{text}");
        let code = match line.split(' ').next() {
            Some("done:") => 0,
            Some("refused") => 1,
            _ => 2,
        };
        assert_eq!(ran.code, code, "{text}");
        lines.push(line.to_owned());
    }
    assert_eq!(
        lines[0], lines[1],
        "quick and whole, sheet and text say the same"
    );
    lines.remove(0)
}

#[test]
fn each_kind_of_change_is_made() {
    for (change, row) in [
        (
            "rename attribute areaHa woodedHa",
            "attribute 17 `woodedHa`",
        ),
        ("rename class stand forestStand", "class 18 `forestStand`"),
        ("range attribute standAge 0 900", "attribute 27 `standAge`"),
        ("range attribute standAge 80 80", "attribute 27 `standAge`"),
        (
            "range attribute elevationM -500 none",
            "attribute 19 `elevationM`",
        ),
        (
            "range attribute slopePercent none none",
            "attribute 20 `slopePercent`",
        ),
        ("add optional parcel soilType", "class 17 `parcel`"),
        ("add auxiliary parcel habitat", "class 17 `parcel`"),
        ("add superior parcel stand", "class 17 `parcel`"),
        ("remove optional stand standAge", "class 18 `stand`"),
        ("remove auxiliary stand habitat", "class 18 `stand`"),
        ("remove superior stand parcel", "class 18 `stand`"),
        ("deactivate class felling", "class 22 `felling`"),
        ("reactivate attribute mapSheet", "attribute 22 `mapSheet`"),
    ] {
        assert_eq!(said(change), format!("done: {change} ({row})"));
    }
}

#[test]
fn rows_are_added_by_lines_of_the_text_form() {
    let guid = "guid 000102030405060708090a0b0c0d0e0f";
    let change = format!(
        "add attribute soilPh 1.3.6.1.4.1.32473.6.1.9; {guid}; syntax 9 2; single; lower 0; upper 140"
    );
    let words = "done: add attribute soilPh 1.3.6.1.4.1.32473.6.1.9 (attribute 57 `soilPh`)";
    assert_eq!(said(&change), words);
    let change = format!(
        "add class nursery 1.3.6.1.4.1.32473.6.22.9; {guid}; structural; under Parcel; may SOILTYPE; in parcel"
    );
    let words = "done: add class nursery 1.3.6.1.4.1.32473.6.22.9 (class 25 `nursery`)";
    assert_eq!(said(&change), words);
    let change = format!("add class nursery 2.999; {guid}; structural; under parcel; may nothing");
    let words =
        "cannot be used: add class nursery 2.999: line 5: may: no attribute is named nothing";
    assert_eq!(said(&change), words);
    let change = format!("add class nursery 2.999; {guid}; base; structural; under parcel");
    let words = "refused 9, added base row: the row to be added has `base`, or 16 among its flags (add class nursery 2.999)";
    assert_eq!(said(&change), words);
}

const TOP: &str =
    "add class top 2.5.6.0; guid 000102030405060708090a0b0c0d0e0f; abstract; under top";

/// A class may name itself, and the first one does.
#[test]
fn the_first_class_is_added_under_itself() {
    let folder = folder("first");
    let file = kept(&folder, "empty.schema", b"# nothing\n");
    let words = done(&["change", &file, TOP]);
    assert!(
        words.starts_with("done: add class top 2.5.6.0 (class 0 `top`)\n"),
        "{words}"
    );
    let text = "# nothing

class top 2.5.6.0
  guid 000102030405060708090a0b0c0d0e0f
  abstract
  under top
";
    assert_eq!(fs::read_to_string(&file).unwrap(), text);
    let guid = "guid 0f0e0d0c0b0a09080706050403020100";
    for (lines, words) in [
        ("under top; in place", "it lists itself"),
        (
            "under place",
            "it names class 25 `place`, which does not come before it, as superclass",
        ),
    ] {
        let change = format!("add class place 2.999; {guid}; structural; {lines}");
        let words = format!("class 25 `place`: {words} (add class place 2.999)");
        assert_eq!(
            said(&change),
            format!("refused 18, class not live: {words}")
        );
    }
    let _ = fs::remove_dir_all(folder);
}

/// Changes that are refused, and with which words.
const REFUSALS: &[(&str, &str)] = &[
    (
        "rename attribute soilType AREAHA",
        "13, name taken: attribute 17 `areaHa` and attribute 23 `AREAHA`",
    ),
    (
        "rename attribute soilType 1st",
        "12, name invalid: attribute 23 `1st`: its name",
    ),
    (
        "rename attribute soilTipe soil",
        "5, no such row: no attribute is named `soilTipe`; is `soilType` meant?",
    ),
    (
        "rename attribute stand soil",
        "5, no such row: no attribute is named `stand`, but a class is",
    ),
    (
        "rename attribute mapSheet sheet",
        "7, wrong state: attribute 22 `mapSheet` is defunct: reactivate it first",
    ),
    (
        "reactivate attribute areaHa",
        "7, wrong state: attribute 17 `areaHa` is active already",
    ),
    (
        "rename attribute cn commonName",
        "8, base row: attribute 1 `cn` came with the server",
    ),
    (
        "add optional stand standAge",
        "10, entry conflict: `standAge` is in the open optional list of `stand` already",
    ),
    (
        "remove optional stand areaHa",
        "10, entry conflict: `areaHa` is not in the open optional list of `stand`",
    ),
    (
        "deactivate attribute areaHa",
        "11, still needed: attribute 17 `areaHa` is in use: class 7 `measuredArea` names it in its mandatory attributes",
    ),
    (
        "deactivate class certified",
        "11, still needed: class 9 `certified` is in use: class 10 `audited` names it in its open auxiliary classes \
             and class 18 `stand` names it in its open auxiliary classes",
    ),
    (
        "add optional stand mapSheet",
        "17, attribute not live: class 18 `stand`: it names attribute 22 `mapSheet`, which is defunct, in its open optional attributes",
    ),
    (
        "add auxiliary stand nothing",
        "18, class not live: no class is named `nothing`",
    ),
    (
        "add auxiliary stand parcel",
        "19, not an auxiliary: class 18 `stand`: its open auxiliary classes hold class 17 `parcel`, which is structural",
    ),
    (
        "range attribute standAge 6 5",
        "25, range crossed: attribute 27 `standAge`: its range is 6 to 5",
    ),
    (
        "add class site 2.999; guid 00000000000000000000000000000003; abstract; under parcel",
        "38, abstract under other: class 25 `site`: it is abstract, and its superclass, class 17 `parcel`, is structural",
    ),
    (
        "add class site 2.999; guid 00000000000000000000000000000003; abstract; under person",
        "38, abstract under other: class 25 `site`: it is abstract, and its superclass, class 1 `person`, is an 88 class",
    ),
    (
        "add class site 2.999; guid 00000000000000000000000000000003; auxiliary; under parcel",
        "39, auxiliary under structural: class 25 `site`: it is auxiliary, and its superclass, class 17 `parcel`, is structural",
    ),
    (
        "add class site 2.999; guid 00000000000000000000000000000003; structural; under habitat",
        "40, structural under auxiliary: class 25 `site`: it is structural, and its superclass, class 11 `habitat`, is auxiliary",
    ),
    (
        "reactivate attribute formerlyOwned",
        "29, link alone: attribute 56 `formerlyOwned`: linkID 32007, and 32006 is held by attribute 55 `formerOwner`, which is defunct",
    ),
    (
        "add attribute site 2.999; guid 00000000000000000000000000000003; syntax 9 2; link 32020",
        "45, link syntax unfit: attribute 57 `site`: linkID 32020 with attributeSyntax 2.5.5.9, \
             and an even one needs 2.5.5.1, 2.5.5.7 or 2.5.5.14",
    ),
    (
        "add auxiliary samplePlot measuredArea",
        "30, mandatory differs: `measuredArea` demands `areaHa`, which `samplePlot` does not demand",
    ),
];

#[test]
fn refusals_name_the_rows_that_they_speak_of() {
    for (change, words) in REFUSALS {
        // Of an addition the first line is told.
        let told = change.split(';').next().unwrap();
        assert_eq!(said(change), format!("refused {words} ({told})"));
    }
    let change = format!("rename attribute soilType {}", "a".repeat(65));
    let words = "4, unreadable: a name of 65 bytes, and 64 is the most";
    assert_eq!(said(&change), format!("refused {words} ({change})"));
    let change =
        "add attribute x 2.999; guid 00000000000000000000000000000003; syntax 9 2; defunct";
    let words = "in attribute 57 `x`: field 05, defunct (0 bytes); its length may be: 0; \
                 its value: there: defunct; absent: active. Never in a change\n";
    assert!(said(change).contains(words), "{}", said(change));
}

#[test]
fn a_new_guid_can_be_had() {
    let change = |name: &str| {
        format!(
            "add attribute {name} 2.999.{}; guid new; syntax 9 2",
            name.len()
        )
    };
    let (ran, _) = changed("forest.sheet", &[&change("one"), &change("other")]);
    assert_eq!(ran.code, 0, "{}", ran.text());
}

#[test]
fn a_text_that_is_not_utf_8_is_not_rewritten() {
    let folder = folder("latin");
    let mut text = fs::read("samples/forest.schema").unwrap();
    text.extend(b"# Fl\xe4che\n");
    let file = kept(&folder, "latin.schema", &text);
    assert!(done(&["check", &file]).contains("accepted"));
    let words = refused(2, &["change", &file, SOUND]);
    assert!(
        words.contains("is not UTF-8, so its comments could not be kept"),
        "{words}"
    );
    assert!(fs::read(&file).unwrap() == text);
    let _ = fs::remove_dir_all(folder);
}

#[test]
fn one_change_may_be_given_as_plain_words() {
    let (ran, _) = changed(
        "forest.sheet",
        &["range", "attribute", "elevationM", "-5", "5"],
    );
    assert_eq!(
        ran.text(),
        "done: range attribute elevationM -5 5 (attribute 19 `elevationM`)\nFILE: saved\n"
    );
}

const SOUND: &str = "range attribute standAge 0 900";
const TAKEN: &str = "rename attribute soilType AREAHA";
const LATER: &str = "rename class stand forestStand";

#[test]
fn all_changes_are_made_or_none() {
    let (ran, bytes) = changed("forest.sheet", &[SOUND, TAKEN, LATER]);
    assert_eq!(ran.code, 1);
    let expected = "done: range attribute standAge 0 900 (attribute 27 `standAge`)
refused 13, name taken: attribute 17 `areaHa` and attribute 23 `AREAHA` (rename attribute soilType AREAHA)
FILE: nothing is changed
";
    assert_eq!(ran.text(), expected);
    assert_eq!(ran.err, "keeper explain 13 says what can be done\n");
    assert!(bytes == fs::read("samples/forest.sheet").unwrap());
}

#[test]
fn with_each_what_is_accepted_is_saved() {
    let (ran, bytes) = changed("forest.sheet", &["--each", SOUND, TAKEN, LATER]);
    assert_eq!(ran.code, 1);
    assert!(ran.text().ends_with("done: rename class stand forestStand (class 18 `forestStand`)\nFILE: saved with 2 of 3 changes\n"));
    let shown = fed(&["show", "-", "forestStand"], &bytes);
    assert_eq!(shown.code, 0, "{}", shown.err);
}

#[test]
fn a_dry_run_saves_nothing() {
    let (ran, bytes) = changed("forest.sheet", &["--dry-run", SOUND]);
    assert_eq!(ran.code, 0);
    assert!(ran.text().ends_with("FILE: a dry run: nothing is saved\n"));
    assert!(bytes == fs::read("samples/forest.sheet").unwrap());
    let sheet = fs::read("samples/forest.sheet").unwrap();
    let ran = fed(&["change", "--dry-run", "-", TAKEN], &sheet);
    assert_eq!(ran.code, 1);
    assert!(ran.text().ends_with("standard input: nothing is changed\n"));
}

/// What the program itself does not understand gives 2, also beside what the
/// keeper refuses.
#[test]
fn a_row_that_is_not_understood_is_told() {
    let row = "add attribute x 2.999; guid zz; syntax 9 2";
    let (ran, _) = changed("forest.sheet", &[row]);
    let words = "cannot be used: add attribute x 2.999: line 2: guid: not whole bytes in hex digits
FILE: nothing is changed
";
    assert_eq!((ran.code, ran.text().as_str()), (2, words));
    let advice = "keeper change --help says how a change is written\n";
    assert_eq!(ran.err, advice);
    let (ran, _) = changed("forest.sheet", &["--each", SOUND, TAKEN, row]);
    assert_eq!(ran.code, 2);
    assert!(
        ran.text().ends_with("FILE: saved with 1 of 3 changes\n"),
        "{}",
        ran.text()
    );
    let explain = "keeper explain 13 says what can be done\n";
    assert_eq!(ran.err, format!("{explain}{advice}"));
}

/// On the command line `#` begins no comment: what stands before it is another
/// name or number, which nobody asked for.
#[test]
fn a_word_of_the_command_line_is_never_cut() {
    let change = "rename attribute soilType soil#2";
    let words = "refused 12, name invalid: attribute 23 `soil#2`: its name";
    assert_eq!(said(change), format!("{words} ({change})"));
    let plain: Vec<&str> = change.split(' ').collect();
    let (ran, _) = changed("forest.sheet", &plain);
    assert!(ran.text().starts_with(words), "{}", ran.text());
    let guid = "guid 000102030405060708090a0b0c0d0e0f";
    let change = format!("add attribute soil#2 2.999; {guid}; syntax 9 2");
    let words =
        "refused 12, name invalid: attribute 57 `soil#2`: its name (add attribute soil#2 2.999)";
    assert_eq!(said(&change), words);
    let change = format!("add attribute soilPh 2.999; {guid}; syntax 9 2; upper 30#0");
    let (ran, _) = changed("forest.sheet", &[&change]);
    let words = "add attribute soilPh 2.999: line 4: upper: not a number that fits\n";
    assert!(ran.text().contains(words), "{}", ran.text());
    let words = [
        "change",
        "samples/forest.sheet",
        "range attribute standAge 0 30#0",
    ];
    assert_eq!(
        refused(2, &words),
        "`30#0`: a number of 32 bits or `none` must stand here\n"
    );
}

#[test]
fn comments_of_a_text_stay() {
    let (_, bytes) = changed(
        "forest.schema",
        &[
            "rename attribute areaHa woodedHa",
            "range attribute memberSince none 2100",
            "add superior stand stand",
            "remove optional stand siteIndexM",
            "add optional stand soilType",
            "rename attribute speciesShare shares",
        ],
    );
    let before = fs::read_to_string("samples/forest.schema").unwrap();
    let expected = [
        ("\nattribute areaHa ", "\nattribute woodedHa "),
        ("  must areaHa\n", "  must woodedHa\n"),
        ("  lower 1823\n", "  upper 2100\n"),
        (
            " parcel\n\n# A part of a stand",
            " parcel stand\n\n# A part of a stand",
        ),
        (" siteIndexM stockingPercent", " stockingPercent"),
        ("speciesShare managedBy\n", "shares managedBy soilType\n"),
        ("\nattribute speciesShare ", "\nattribute shares "),
    ];
    let expected = expected
        .into_iter()
        .fold(before, |text, (from, to)| text.replacen(from, to, 1));
    assert_eq!(String::from_utf8(bytes).unwrap(), expected);
}

/// A small text with `age`, a defunct attribute whose lines have comments.
const COMMENTED: &str = "attribute age 2.999.1  # years\r
  guid 00000000000000000000000000000001
  syntax 9 2\r
  defunct  # replaced 2014
  lower 0 # agreed\r
  # the end
class top 2.5.6.0
  guid 00000000000000000000000000000002
  abstract
  under top";

#[test]
fn comments_stay_where_their_line_goes_and_lines_keep_their_ends() {
    let folder = folder("commented");
    let text = format!("\u{feff}{COMMENTED}\u{1a}");
    let file = kept(&folder, "age.schema", text.as_bytes());
    done(&[
        "change",
        &file,
        "reactivate attribute age",
        "range attribute age none 9",
    ]);
    let expected = text
        .replace("  defunct  # replaced", "  # replaced")
        .replace("  lower 0 # agreed\r\n", "  # agreed\r\n  upper 9\r\n");
    assert_eq!(fs::read_to_string(&file).unwrap(), expected);
    done(&[
        "change",
        &file,
        "add attribute x 2.999.2; guid 00000000000000000000000000000003; syntax 9 2",
    ]);
    let row =
        "\n\nattribute x 2.999.2\n  guid 00000000000000000000000000000003\n  syntax 9 2\n\u{1a}";
    let expected = expected.replace('\u{1a}', row);
    assert_eq!(fs::read_to_string(&file).unwrap(), expected);
    let _ = fs::remove_dir_all(folder);
}

#[test]
fn words_that_are_no_change_are_told() {
    let words = refused(2, &["change", "samples/forest.sheet"]);
    assert!(
        words.starts_with("something is missing; it is: keeper change "),
        "{words}"
    );
    let words = refused(2, &["change", "samples/forest.sheet", "paint", "it"]);
    assert_eq!(
        words,
        "`paint it` is no change: one begins with add, remove, rename, range, deactivate or reactivate\n"
    );
    let words = refused(
        2,
        &[
            "change",
            "samples/forest.sheet",
            "range attribute a 0 9999999999",
        ],
    );
    assert_eq!(
        words,
        "`9999999999`: a number of 32 bits or `none` must stand here\n"
    );
    let words = refused(2, &["change", "samples/forest.sheet", SOUND, "stand"]);
    assert_eq!(words, "`stand` is no change: put each change into quotes\n");
    let words = refused(
        2,
        &["change", "samples/forest.sheet", "deactivate row stand"],
    );
    assert_eq!(words, "`row`: attribute or class must stand here\n");
    let words = refused(2, &["change", "-", SOUND]);
    assert_eq!(
        words,
        "standard input cannot be saved: name a file, or use --dry-run\n"
    );
    let words = refused(2, &["change", "samples", SOUND]);
    assert_eq!(words, "samples: is no file, so it cannot be replaced\n");
}
