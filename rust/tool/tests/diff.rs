//! `keeper diff`: its changes lead from the one schema to the other.
#![allow(clippy::unwrap_used, clippy::expect_used)]

mod common;

use common::{copied, done, fed, folder, kept, ran};
use std::fs;

const FOREST: &str = "samples/forest.sheet";

/// What the diff from the forest to a text says, and its exit code.
fn diff(text: &str) -> (u8, String) {
    let ran = fed(&["diff", FOREST, "-"], text.as_bytes());
    assert_eq!(ran.err, "");
    (ran.code, ran.text())
}

fn forest() -> String {
    common::top();
    fs::read_to_string("samples/forest.schema").unwrap()
}

#[test]
fn the_same_schema_differs_in_nothing() {
    assert_eq!(diff(&forest()), (0, String::new()));
}

/// Changes of every kind, then the diff, made to another copy: the same bytes.
#[test]
fn changes_come_back_as_changes() {
    let folder = folder("diff");
    let file = copied(&folder, "forest.sheet");
    let changes = "rename attribute areaHa woodedHa
rename class stand forestStand
range attribute standAge 0 none
remove optional forestStand managedBy
remove auxiliary forestStand habitat
add superior parcel forestStand
deactivate class felling
reactivate attribute mapSheet
add attribute soilPh 1.3.6.1.4.1.32473.6.1.9
  guid 000102030405060708090a0b0c0d0e0f
  syntax 9 2
add optional located soilPh
add class nursery 1.3.6.1.4.1.32473.6.22.9
  guid 0f0e0d0c0b0a09080706050403020100
  structural
  under parcel
  may soilPh
";
    let list = kept(&folder, "changes", changes.as_bytes());
    done(&["change", "--from", &list, &file]);
    let said = done(&["diff", FOREST, &file]);
    assert!(
        said.starts_with("reactivate attribute mapSheet\nrename attribute areaHa woodedHa\n"),
        "{said}"
    );
    let again = copied(&folder, "forest.schema");
    let list = kept(&folder, "changes", said.as_bytes());
    done(&["change", "--from", &list, &again]);
    assert_eq!(done(&["diff", &again, &file]), "");
    assert!(fs::read(&file).unwrap() == ran(&["export", "--sheet", &again]).out);
    let _ = fs::remove_dir_all(folder);
}

#[test]
fn what_no_change_can_do_is_named() {
    let text = forest()
        .replacen(
            "syntax 9 2\n  single\n  lower 0\n  upper 1500",
            "syntax 9 10\n  lower 0\n  upper 900",
            1,
        )
        .replacen("  must latinName speciesCode\n", "  must latinName\n", 1);
    let text = text.split("\nclass oldHabitat").next().unwrap();
    let expected = "range attribute standAge 0 900
# cannot be changed: attribute 27 `standAge`: oMSyntax: 2, and would be 10
# cannot be changed: attribute 27 `standAge`: values: single, and would be multi
# cannot be changed: class 21 `species`: mandatory attributes: speciesCode latinName, and would be latinName
# cannot be changed: class 24 `oldHabitat`: no change removes a row
";
    assert_eq!(diff(text), (1, expected.to_owned()));
}

#[test]
fn what_the_keeper_refuses_is_named_with_its_number() {
    let text = forest().replacen("\nattribute street ", "\nattribute road ", 1);
    let text = text.replacen("system-may street ", "system-may road ", 1);
    let expected = "# cannot be changed: rename attribute street road: 8, base row\n";
    assert_eq!(diff(&text), (1, expected.to_owned()));
}

/// Two names that change places need a third for a moment.
#[test]
fn names_can_change_places() {
    let text = forest()
        .replace("standAge", "@")
        .replace("siteIndexM", "standAge")
        .replace("@", "siteIndexM");
    let (code, said) = diff(&text);
    assert_eq!(code, 0, "{said}");
    let expected = "rename attribute standAge keeper-1
rename attribute siteIndexM standAge
rename attribute keeper-1 siteIndexM
";
    assert_eq!(said, expected);
}

/// A text with another word wherever one stands.
fn renamed(text: &str, from: &str, to: &str) -> String {
    let words = text.split_inclusive(char::is_whitespace);
    let new = |word: &str| match word.trim_end() == from {
        true => word.replacen(from, to, 1),
        false => word.to_owned(),
    };
    words.map(new).collect()
}

/// A name that is never free is not waited for under another.
#[test]
fn names_are_given_up_for_a_moment_only() {
    // The name of a base row, which cannot be renamed.
    let text = renamed(&renamed(&forest(), "street", "road"), "soilType", "street");
    let expected = "# cannot be changed: rename attribute street road: 8, base row
# cannot be changed: rename attribute soilType street: 13, name taken
";
    assert_eq!(diff(&text), (1, expected.to_owned()));
    // The same, and two names that can change places.
    let text = renamed(&renamed(&text, "standAge", "@"), "siteIndexM", "standAge");
    let text = renamed(&text, "@", "siteIndexM");
    let places = "rename attribute standAge keeper-1
rename attribute siteIndexM standAge
rename attribute keeper-1 siteIndexM
";
    assert_eq!(diff(&text), (1, places.to_owned() + expected));
    // The names of a base row and of another change places.
    let text = renamed(&renamed(&forest(), "street", "@"), "soilType", "street");
    let expected = "# cannot be changed: rename attribute street soilType: 8, base row
# cannot be changed: rename attribute soilType street: 13, name taken
";
    assert_eq!(
        diff(&renamed(&text, "@", "soilType")),
        (1, expected.to_owned())
    );
    // The name of a row that the new schema does not have.
    let text = forest();
    let text = text.split("\nclass oldHabitat").next().unwrap();
    let expected = "# cannot be changed: class 24 `oldHabitat`: no change removes a row
# cannot be changed: rename class felling oldHabitat: 13, name taken
";
    assert_eq!(
        diff(&renamed(text, "felling", "oldHabitat")),
        (1, expected.to_owned())
    );
}

/// Names that are given up for a moment are free in both schemas.
#[test]
fn a_name_for_a_moment_is_nobodys() {
    let old = forest().replace("soilType", "keeper-1");
    let new = old
        .replace("standAge", "@")
        .replace("siteIndexM", "standAge");
    let new = new
        .replace("@", "siteIndexM")
        .replace("outline", "KEEPER-2");
    let folder = folder("moment");
    let old = kept(&folder, "old", old.as_bytes());
    let said = fed(&["diff", &old, "-"], new.as_bytes());
    assert_eq!(said.code, 0, "{}", said.text());
    assert!(
        said.text().contains("rename attribute standAge keeper-3\n"),
        "{}",
        said.text()
    );
    let _ = fs::remove_dir_all(folder);
}

/// Classes that list each other are added one after the other, then joined.
#[test]
fn added_classes_may_list_each_other() {
    let class = |name: &str, other: &str, number: u8| {
        format!(
            "\nclass {name} 2.999.{number}\n guid {number:032x}\n auxiliary\n under top\n aux {other}\n"
        )
    };
    let text = forest() + &class("one", "other", 1) + &class("other", "one", 2);
    let (code, said) = diff(&text);
    assert_eq!(code, 0, "{said}");
    assert!(said.contains("add auxiliary one other\n"), "{said}");
}

/// The first class stands under itself; a class that lists itself is added first.
#[test]
fn added_classes_may_name_themselves() {
    let top =
        "class top 2.5.6.0\n  guid 000102030405060708090a0b0c0d0e0f\n  abstract\n  under top\n";
    let place =
        "class place 2.999\n  guid 0f0e0d0c0b0a09080706050403020100\n  structural\n  under top\n";
    let folder = folder("themselves");
    let empty = kept(&folder, "empty", b"# nothing\n");
    let said = fed(
        &["diff", &empty, "-"],
        format!("{top}{place}  in place\n").as_bytes(),
    );
    assert_eq!(said.code, 0, "{}", said.text());
    let list = kept(&folder, "changes", &said.out);
    let expected = format!("add {top}add {place}add superior place place\n");
    assert_eq!(said.text().replace('-', ""), expected);
    done(&["change", "--from", &list, &empty]);
    let said = fed(&["diff", &empty, "-"], (top.to_owned() + place).as_bytes());
    assert_eq!(said.text(), "remove superior place place\n");
    let _ = fs::remove_dir_all(folder);
}

/// An added row comes last, so one that stands further up is never quite there.
#[test]
fn another_order_is_named() {
    let attribute =
        "attribute soilPh 2.999.1\n  guid 00000000000000000000000000000001\n  syntax 9 2\n";
    let text = forest().replacen(
        "attribute soilType ",
        &format!("{attribute}\nattribute soilType "),
        1,
    );
    let order = "# cannot be changed: the attribute rows stand in another order\n";
    assert_eq!(diff(&text), (1, format!("add {attribute}{order}")));
    let folder = folder("order");
    let file = copied(&folder, "forest.schema");
    let list = kept(&folder, "changes", diff(&text).1.as_bytes());
    done(&["change", "--from", &list, &file]);
    let again = fed(&["diff", &file, "-"], text.as_bytes());
    assert_eq!((again.code, again.text().as_str()), (1, order));
    let _ = fs::remove_dir_all(folder);
}

/// New rows are added in their order, though the first lists the second.
#[test]
fn the_order_of_added_rows_stays() {
    let class = |name: &str, number: u8| {
        format!("\nclass {name} 2.999.{number}\n guid {number:032x}\n auxiliary\n under top\n")
    };
    let text = forest() + &class("one", 1) + " aux other\n" + &class("other", 2);
    let (code, said) = diff(&text);
    assert_eq!(code, 0, "{said}");
    let places = [
        "add class one ",
        "add class other ",
        "add auxiliary one other\n",
    ];
    let places = places.map(|words| said.find(words).unwrap());
    assert!(places.is_sorted(), "{said}");
    // One that cannot be added does not stop those behind it.
    let text = forest() + &class("one", 1) + " base\n" + &class("other", 2);
    let (code, said) = diff(&format!("{text} aux located\n"));
    assert_eq!(code, 1, "{said}");
    assert!(
        said.starts_with("add class other ") && said.contains("\n  aux located\n"),
        "{said}"
    );
    let refused = "# cannot be changed: add class one 2.999.1: 9, added base row\n";
    assert!(said.ends_with(&format!("\n{refused}")), "{said}");
    let (code, said) = diff(&format!("{text} aux one\n"));
    assert_eq!(code, 1, "{said}");
    let entry =
        "# cannot be changed: add auxiliary other one: a row that it names cannot be added\n";
    assert!(
        said.ends_with(&format!("\n  under top\n{refused}{entry}")),
        "{said}"
    );
}

/// An added class names rows by the names that they have then, though they are to
/// have others and cannot.
#[test]
fn an_added_class_names_the_right_rows() {
    let text = forest()
        .replacen("\nattribute street ", "\nattribute road ", 1)
        .replacen("system-may street ", "system-may road ", 1)
        .replacen("\nattribute soilType ", "\nattribute street ", 1)
        .replacen("slopePercent soilType\n", "slopePercent street\n", 1);
    let class = "\nclass place 2.999\n guid 00000000000000000000000000000001\n structural\n under top\n may street\n";
    let (code, said) = diff(&(text + class));
    assert_eq!(code, 1, "{said}");
    assert!(said.starts_with("add class place 2.999\n"), "{said}");
    assert!(said.contains("\n  may soilType\n"), "{said}");
}
