//! `keeper change --from`: changes in a file.
#![allow(clippy::unwrap_used, clippy::expect_used)]

mod common;

use common::{copied, done, fed, folder, kept, ran, refused};
use std::fs;

#[test]
fn changes_stand_in_a_file_with_comments() {
    let folder = folder("from");
    let file = copied(&folder, "forest.schema");
    let changes = b"# The autumn's changes.
add attribute soilPh 1.3.6.1.4.1.32473.6.1.9   # in tenths
  guid 00010203-0405-0607-0809-0a0b0c0d0e0f

  # Single-valued, of course.
  syntax 9 2
  single
add optional located soilPh
rename attribute soilPh soilAcidity
";
    let list = kept(&folder, "changes", changes);
    let said = done(&["change", "--from", &list, &file]);
    assert_eq!(said.lines().count(), 4);
    assert!(done(&["show", &file, "stand"]).contains("\n  soilAcidity         through located\n"));
    let bad = kept(
        &folder,
        "bad",
        b"range attribute standAge 0 900\n\nrange attribute standAge zero\n",
    );
    let words = refused(2, &["change", "--from", &bad, &file]);
    assert!(
        words.starts_with(&format!(
            "{bad}: line 3: `range attribute standAge zero` is not complete"
        )),
        "{words}"
    );
    let bad = kept(&folder, "bad", b"\nadd attribute x 2.999\n\n guid 00\n");
    let ran = ran(&["change", "--from", &bad, &file]);
    let words = "cannot be used: add attribute x 2.999: line 2: attribute: syntax is missing\n";
    assert!(ran.text().starts_with(words), "{}", ran.text());
    let _ = fs::remove_dir_all(folder);
}

/// What a diff prints can always be fed back, also where it is nothing, or only
/// what cannot be changed.
#[test]
fn a_list_may_hold_no_change() {
    let folder = folder("none");
    let file = copied(&folder, "forest.schema");
    for text in [
        "",
        "\n",
        "# cannot be changed: the attribute rows stand in another order\n",
    ] {
        let list = kept(&folder, "changes", text.as_bytes());
        let nothing = format!("{file}: nothing is changed\n");
        assert_eq!(done(&["change", "--from", &list, &file]), nothing);
        let ran = fed(&["change", "--from", "-", &file], text.as_bytes());
        assert_eq!((ran.code, ran.text()), (0, nothing), "{}", ran.err);
    }
    assert!(fs::read(&file).unwrap() == fs::read("samples/forest.schema").unwrap());
    let words = refused(2, &["change", "--dry-run", "--from", "-", "-"]);
    assert_eq!(
        words,
        "only one of CHANGES and FILE can be standard input\n"
    );
    let list = kept(&folder, "changes", b"# nothing\n");
    assert_eq!(
        ran(&["change", "--from", &list, "samples/refused.sheet"]).code,
        1
    );
    let list = kept(&folder, "changes", &vec![b'\n'; (16 << 20) + 1]);
    let words = refused(2, &["change", "--from", &list, &file]);
    assert!(
        words.ends_with("is longer than 16777216 bytes, the most that is read\n"),
        "{words}"
    );
    let _ = fs::remove_dir_all(folder);
}

/// The time grows with the length of a list, not with its square.
#[test]
fn a_row_of_two_million_lines_is_read() {
    let folder = folder("long");
    let row = "add attribute x 2.999\nguid 000102030405060708090a0b0c0d0e0f\nsyntax 9 2\n";
    let lines = row.to_owned() + &"single\n\n".repeat(1_000_000);
    let list = kept(&folder, "changes", lines.as_bytes());
    let words = [
        "change",
        "--dry-run",
        "--from",
        &list,
        "samples/forest.sheet",
    ];
    assert!(done(&words).starts_with("done: add attribute x 2.999 (attribute 57 `x`)\n"));
    let list = kept(&folder, "changes", (lines + "double\n").as_bytes());
    let ran = ran(&[
        "change",
        "--dry-run",
        "--from",
        &list,
        "samples/forest.sheet",
    ]);
    let words = "add attribute x 2.999: line 2000004: double: not a line of this row\n";
    assert!(ran.text().contains(words), "{}", ran.text());
    let _ = fs::remove_dir_all(folder);
}
