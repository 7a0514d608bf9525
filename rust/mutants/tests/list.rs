//! The list fits the reference as it is.

use mutants::{Edit, edits};
use std::fs;
use std::process::Command;

fn list() -> Vec<Edit> {
    let list = fs::read_to_string(concat!(env!("CARGO_MANIFEST_DIR"), "/list"));
    edits(&list.unwrap_or_default()).unwrap_or_default()
}

#[test]
fn at_least_200_edits_each_of_its_own() {
    let list = list();
    assert!(list.len() >= 200);
    for (place, edit) in list.iter().enumerate() {
        let made = |other: &Edit| (other.file.clone(), other.old.clone(), other.new.clone());
        let other = list[..place]
            .iter()
            .find(|other| made(other) == made(edit) && other.after == edit.after);
        assert_eq!(other, None);
    }
}

#[test]
fn each_edit_can_be_made() {
    for edit in list() {
        let file = concat!(env!("CARGO_MANIFEST_DIR"), "/../reference/src/").to_string();
        let text = fs::read_to_string(file + &edit.file).unwrap_or_default();
        assert!(edit.made(&text).is_some(), "{edit:?}");
    }
}

#[test]
fn a_text_that_no_edit_has_fails_the_command() {
    let mut command = Command::new(env!("CARGO_BIN_EXE_mutants"));
    let ran = command.arg("no sentence says this").output();
    assert!(ran.is_ok_and(|ran| ran.status.code() == Some(1) && ran.stdout.is_empty()));
}
