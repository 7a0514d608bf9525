//! The text form: faults are told by their line, and the lines of a row may come
//! in any order.
#![allow(clippy::unwrap_used)]

use std::fs;
use tool::rows::Attribute;
use tool::text::read;

const ATTRIBUTE: &str =
    "attribute cn 2.5.4.3\n guid 00000000-0000-0000-0000-000000000001\n syntax 12 64\n";

fn fault(text: &str) -> String {
    let fault = read(text).err();
    fault.map_or_else(String::new, |fault| fault.to_string())
}

#[test]
fn a_sound_text_has_no_fault() {
    assert_eq!(fault(ATTRIBUTE), "");
    assert_eq!(fault("# nothing\n\n"), "");
}

#[test]
fn faults_are_told_by_their_line() {
    let class =
        "class top 2.5\n guid 00000000000000000000000000000002\n abstract\n under top\n must sn\n";
    let behind = |line: &str| format!("{ATTRIBUTE} {line}\n");
    let told = [
        ("base\n".to_owned(), "1: base: no row before it"),
        (
            "\nattribute cn\n".to_owned(),
            "2: attribute: a name and an identifier must follow",
        ),
        (
            "attribute cn 2.5\n syntax 1 2\n".to_owned(),
            "1: attribute: guid is missing",
        ),
        (behind("lower x"), "4: lower: not a number that fits"),
        (
            behind("object 1"),
            "4: object: not whole bytes in hex digits",
        ),
        (
            behind("object +f"),
            "4: object: not whole bytes in hex digits",
        ),
        (
            ATTRIBUTE.replace("2.5.4.3", "2.+5.4.3"),
            "1: attribute: the identifier is not numbers with dots between",
        ),
        (behind("under top"), "4: under: not a line of this row"),
        (
            format!("{ATTRIBUTE}{class}"),
            "8: must: no attribute is named sn",
        ),
    ];
    for (text, words) in told {
        assert_eq!(fault(&text), format!("line {words}"));
    }
}

/// The attribute whose lines these are, and guid and syntax.
fn attribute(lines: &[&str]) -> Attribute {
    let text = format!("{ATTRIBUTE}{}\n", lines.join("\n"));
    let (schema, _) = read(&text).unwrap();
    assert_eq!(schema.attributes.len(), 1);
    schema.attributes[0].clone()
}

#[test]
fn flags_join() {
    let flags = |lines: &[&str]| attribute(lines).common.flags;
    assert_eq!(flags(&[]), 0);
    assert_eq!(flags(&["base"]), 0x10);
    assert_eq!(flags(&["flags 3"]), 3);
    assert_eq!(flags(&["base", "flags 3"]), 0x13);
    assert_eq!(flags(&["flags 3", "base"]), 0x13);
    assert_eq!(flags(&["flags 3", "base", "flags 5"]), 0x17);
}

#[test]
fn the_order_of_the_lines_does_not_matter() {
    let mut lines = vec![
        "base", "flags 2", "defunct", "single", "lower 1", "upper 9", "mapi 7",
    ];
    let expected = attribute(&lines);
    for _ in 0..lines.len() {
        lines.rotate_left(1);
        assert_eq!(attribute(&lines), expected);
    }
}

#[test]
fn what_is_said_last_counts() {
    assert_eq!(attribute(&["lower 1", "lower 2"]).lower, Some(2));
}

/// The sheets of the samples are those of their texts: as the keeper writes them
/// where it accepts them, else as they are loaded. With MAKE in the environment
/// they are made anew.
#[test]
fn the_samples_are_current() {
    let sample = concat!(env!("CARGO_MANIFEST_DIR"), "/../../samples/");
    for (name, accepted) in [("forest", true), ("refused", false)] {
        let text = fs::read_to_string(format!("{sample}{name}.schema")).unwrap();
        let sheet = tool::sheet::encode(&read(&text).unwrap().0).unwrap();
        let stores = keeper::Stores::loaded(&sheet);
        assert_eq!(stores.is_ok(), accepted, "{name}");
        let sheet = stores.map_or(sheet, |stores| stores.sheet().unwrap());
        let file = format!("{sample}{name}.sheet");
        if std::env::var_os("MAKE").is_some() {
            fs::write(&file, &sheet).unwrap();
        }
        assert!(sheet == fs::read(&file).unwrap(), "{file}");
    }
}
