//! `keeper list`, `show`, `tree` and `explain`, with expected output.
#![allow(clippy::unwrap_used, clippy::expect_used)]

mod common;

use common::{done, refused};

const FOREST: &str = "samples/forest.sheet";

/// The classes of the listing that the proved program prints, in its words.
#[test]
fn the_list_has_the_counts_of_the_proved_listing() {
    let listed = done(&["list", "--classes", FOREST]);
    let proved = std::fs::read_to_string("samples/forest.txt").unwrap();
    for (line, expected) in listed.lines().skip(1).zip(proved.lines().skip(1)) {
        let line = line.replace("88 class", "88");
        let words: Vec<_> = line.split_whitespace().collect();
        let same = [words[0], words[1], words[2], words[4], words[5]].join(" ");
        assert_eq!(same, expected);
    }
    assert_eq!(listed.lines().count(), proved.lines().count());
    assert!(listed.ends_with(
        "24  oldHabitat          1.3.6.1.4.1.32473.6.29.2  auxiliary   2     8    defunct\n"
    ));
}

#[test]
fn the_list_has_both_tables_or_one() {
    let both = done(&["list", FOREST]);
    let attributes = done(&["list", "--attributes", FOREST]);
    let classes = done(&["list", "--classes", FOREST]);
    assert_eq!(both, format!("{attributes}\n{classes}"));
    let first = "0   objectClass           2.5.4.0                    2.5.5.2 6     multi   base";
    assert_eq!(attributes.lines().nth(1), Some(first));
}

#[test]
fn a_class_is_shown_with_what_it_demands_and_whence() {
    let expected = "class 11 habitat
  identifier                1.3.6.1.4.1.32473.6.20.6
  schemaIDGUID              ab60268d52fc41a4a0af8faf94de1d0f
  systemFlags               0
  category                  auxiliary
  superclass                located
  depth                     2
  open optional attributes  habitatCode
  reaches                   top, located, habitat
demands
  objectClass           through top
  nTSecurityDescriptor  through top
allows
  description     through top
  whenCreated     through top
  memberOf        through top
  managedObjects  through top
  elevationM      through located
  slopePercent    through located
  soilType        through located
  habitatCode     through habitat
";
    assert_eq!(done(&["show", FOREST, "HABITAT"]), expected);
}

#[test]
fn an_attribute_is_shown_with_its_fields() {
    let expected = "attribute 14 memberOf
  identifier       1.2.840.113556.1.2.102
  schemaIDGUID     bd71f3a022ac46b1a13bd3913b8d1df2
  systemFlags      16
  marks            base
  attributeSyntax  2.5.5.1
  oMSyntax         127
  oMObjectClass    2b0c0287731c00854a
  values           many
  linkID           3
  mAPIID           32776
  named by         top
";
    assert_eq!(done(&["show", FOREST, "memberOf"]), expected);
}

#[test]
fn a_name_that_is_nowhere_is_told_with_the_one_meant() {
    let words = "samples/forest.sheet: no row is named `stnd`; is `stand` meant?\n";
    assert_eq!(refused(2, &["show", FOREST, "stnd"]), words);
    let words = "samples/forest.sheet: no row is named `arehHa`; is `areaHa` meant?\n";
    assert_eq!(refused(2, &["show", FOREST, "arehHa"]), words);
    assert_eq!(
        refused(2, &["show", FOREST, "hunting"]),
        "samples/forest.sheet: no row is named `hunting`\n"
    );
}

#[test]
fn the_tree_has_auxiliaries_beside_the_classes() {
    let tree = done(&["tree", FOREST]);
    let first: Vec<_> = tree.lines().take(4).collect();
    let expected = [
        "top (abstract, base)",
        "├─ person (88 class, base)",
        "│  └─ forester (structural) + mailRecipient",
        "├─ organizationalUnit (structural, base) + postalAddress",
    ];
    assert_eq!(first, expected);
    assert!(tree.ends_with("└─ audited (auxiliary) + certified\n"));
    assert_eq!(tree.lines().count(), 25);
}

#[test]
fn a_number_is_explained_from_the_page() {
    let expected = "25, range crossed
  Both ends of a range are there, and rangeLower is greater than rangeUpper. The
  ends are signed numbers. Equal ends are a fixed length and pass.
  Do: correct the range, or leave one end out.
  Given by: load, audit, plain change, quick change.
";
    assert_eq!(done(&["explain", "25"]), expected);
    assert_eq!(done(&["explain"]).lines().count(), 35);
    for word in ["32", "37", "41", "46", "x"] {
        assert_eq!(
            refused(2, &["explain", word]),
            format!("{word}: no such number; there are 0 to 21, 23 to 31, 38 to 40 and 45\n")
        );
    }
}

/// 22 is answered, with exit code 0, though no call gives it and no list has it.
#[test]
fn a_number_that_is_not_used_any_more_is_told_with_what_it_was() {
    let expected = "22, not used any more
  22 is not used (it was: a chain of superclasses that does not come to class
  0), and will not be used again (document 02, request 7). A superclass comes
  before its class (18), so every chain of stores in order ends at class 0, and
  no call on them gave it. On stores that are not in order a quick change goes
  on to the next number whose condition holds; depth tells such a chain by its
  own 18.
";
    assert_eq!(done(&["explain", "22"]), expected);
    let listed = done(&["explain"]);
    assert!(!listed.lines().any(|line| line.starts_with("22")));
}
