//! The scripts made by hand are current, and meet every number that each call
//! can give.

use generate::coverage::{CALLS, may_give};
use reference::NUMBERS;
use replay::examples::{NAMES, SHEETS, UNSTORED, listed, script};
use replay::{Player, SMALL, Step, steps};
use std::collections::BTreeSet;
use std::fs;

const CRATES: &str = concat!(env!("CARGO_MANIFEST_DIR"), "/../../crates");

fn stored(name: &str) -> Vec<u8> {
    fs::read(format!("{CRATES}/replay/data/{name}.script")).unwrap_or_default()
}

/// What the gate holds a program to.
fn output(program: &str) -> String {
    fs::read_to_string(format!("{CRATES}/{program}/stdout")).unwrap_or_default()
}

/// The line that the reference gives for each step.
fn lines(script: &[u8]) -> String {
    let mut player = Player::default();
    let lines = steps(script).map(|step| match step {
        Ok(step) => player.play(&step) + "\n",
        Err(unplayable) => unplayable.to_string(),
    });
    lines.collect()
}

#[test]
fn the_stored_scripts_are_those_made() {
    for name in NAMES {
        let made = script(name);
        assert!(made.as_ref().is_ok_and(|made| made.len() <= SMALL as usize));
        assert!(made == Ok(stored(name)), "{name}");
    }
    assert!(script("another").is_err());
}

/// The reference answers as the papers where no script is stored, too.
#[test]
fn the_others_can_be_made() {
    for name in UNSTORED {
        assert_eq!(script(name).err(), None);
    }
}

/// "the same": on stores in order every plain change, made by the quick call,
/// gives the same answer and bytes.
#[test]
fn on_stores_in_order_the_quick_change_does_what_the_plain_one_does() {
    let mut changes = 0;
    for script in NAMES.into_iter().chain(UNSTORED).map(script) {
        let script = script.unwrap_or_default();
        let mut player = Player::default();
        for step in steps(&script).map_while(Result::ok) {
            let mut copy = player.stores().clone();
            let answer = player.advance(&step);
            let Step::Plain(change) = step else { continue };
            if copy.audit().number == 0 {
                assert_eq!(copy.quick(&change), answer, "{change:02X?}");
                assert!(copy == *player.stores(), "{change:02X?}");
                changes += 1;
            }
        }
    }
    assert!(changes > 500, "{changes} changes");
}

/// The gate's player plays its standard input, then these scripts.
#[test]
fn the_stored_output_is_what_the_reference_plays() {
    let first = fs::read(format!("{CRATES}/replay/stdin")).unwrap_or_default();
    let rest = NAMES.map(|name| lines(&stored(name))).concat();
    assert!(lines(&first) + &rest == output("replay"));
}

/// "no output and no store is longer" than 64 KiB.
#[test]
fn the_rattle_player_can_play_all() {
    for name in NAMES {
        for step in steps(&stored(name)) {
            let playable = step.is_ok_and(|step| match step {
                Step::Write(length) | Step::Resize { length, .. } => length <= SMALL,
                _ => true,
            });
            assert!(playable, "{name}");
        }
    }
}

#[test]
fn the_sheets_are_listed_as_the_paper_says() {
    for (name, text) in SHEETS {
        let sheet = listed(name).unwrap_or_default();
        let file = format!("{CRATES}/list_samples/data/{name}.sheet");
        assert!(sheet == fs::read(file).unwrap_or_default(), "{name}");
        let listing = reference::listing(&sheet);
        assert_eq!(String::from_utf8_lossy(&listing), text);
    }
    let texts = SHEETS.map(|(_, text)| text).concat();
    assert!(output("list_samples").ends_with(&texts));
}

#[test]
fn one_byte_more_is_too_long() {
    let mut longest = listed("edge").unwrap_or_default();
    assert_eq!(longest.len(), 32_768);
    longest.push(0);
    assert_eq!(reference::listing(&longest), b"too long\n");
}

/// The numbers that a call gives in these scripts.
fn met(call: &str) -> BTreeSet<u64> {
    let outputs = NAMES.map(|name| lines(&stored(name))).concat();
    let lines = outputs.lines().map(|line| line.split(' '));
    let calls = lines.filter_map(|mut words| (words.next() == Some(call)).then_some(words));
    calls
        .filter_map(|mut words| words.next()?.parse().ok())
        .collect()
}

/// 22 "is not used again" (document 02, wish 7).
#[test]
fn every_number_that_a_call_can_give_is_met() {
    for call in CALLS {
        let expected = NUMBERS.into_iter().filter(|number| may_give(call, *number));
        assert_eq!(met(call), expected.collect(), "{call}");
    }
}
