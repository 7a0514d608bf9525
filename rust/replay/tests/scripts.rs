//! Scripts are read as they were made, and played as the format says.

use reference::{CLOSURE, LENGTHS};
use replay::{Kind, Player, Script, Step, Unplayable, fnv1a, steps};
use std::collections::BTreeSet;

fn script(made: &[Step]) -> Vec<u8> {
    made.iter().flat_map(Step::bytes).collect()
}

#[test]
fn a_script_is_read_as_it_was_made() {
    let made: Vec<Step> = Script::new(1, Kind::Whole).take(500).collect();
    let read: Result<Vec<Step>, Unplayable> = steps(&script(&made)).collect();
    assert_eq!(read, Ok(made));
}

#[test]
fn the_same_seed_makes_the_same_script() {
    let one: Vec<Step> = Script::new(2, Kind::Whole).take(200).collect();
    let other: Vec<Step> = Script::new(2, Kind::Whole).take(200).collect();
    assert!(one == other);
}

#[test]
fn a_script_has_all_steps() {
    let names: BTreeSet<&str> = Script::new(3, Kind::Whole)
        .take(500)
        .map(|step| step.name())
        .collect();
    assert_eq!(names.len(), 8);
}

#[test]
fn the_bytes_of_each_step() {
    let all = [
        Step::Load(vec![1, 2]),
        Step::Plain(vec![]),
        Step::Quick(vec![3]),
        Step::Audit,
        Step::Write(258),
        Step::Depth(515),
        Step::Poke {
            store: 2,
            offset: 0x01_0203,
            byte: 9,
        },
        Step::Resize {
            store: 1,
            length: 7,
        },
    ];
    let bytes = [
        &[1, 0, 0, 0, 2, 1, 2][..],
        &[2, 0, 0, 0, 0],
        &[3, 0, 0, 0, 1, 3],
        &[4],
        &[5, 0, 0, 1, 2],
        &[6, 2, 3],
        &[7, 2, 0, 1, 2, 3, 9],
        &[8, 1, 0, 0, 0, 7],
    ]
    .concat();
    assert_eq!(script(&all), bytes);
    let read: Result<Vec<Step>, Unplayable> = steps(&bytes).collect();
    assert_eq!(read, Ok(all.to_vec()));
}

#[test]
fn a_script_that_cannot_be_read_is_told_by_its_step() {
    let none = LENGTHS.len() as u8;
    let unplayable: [&[u8]; 8] = [
        &[0],
        &[9],
        &[1, 0, 0, 0, 2, 1],
        &[5, 0, 16, 0, 1],
        &[6, 0],
        &[7, none, 0, 0, 0, 0, 0],
        &[8, none, 0, 0, 0, 0],
        &[8, 0, 0, 16, 0, 1],
    ];
    for bytes in unplayable {
        let script = [&[4, 4], bytes].concat();
        let read: Vec<Result<Step, Unplayable>> = steps(&script).collect();
        let told = Err(Unplayable { offset: 2 });
        assert_eq!(read, [Ok(Step::Audit), Ok(Step::Audit), told]);
    }
}

#[test]
fn a_line_tells_the_answer_and_the_hashes() {
    let mut player = Player::default();
    let stores = player.stores().clone();
    let hashes = stores.0.map(|store| format!(" {:016x}", fnv1a(&store)));
    let hashes = hashes.concat();
    let audit = player.play(&Step::Audit);
    assert_eq!(audit, format!("audit 0 0 0{hashes}"));
    let out = fnv1a(&[0x01, 0x00, 0x01, 0x01, 0xA5]);
    let written = player.play(&Step::Write(5));
    assert_eq!(written, format!("write 0 0 4{hashes} {out:016x}"));
    let out = fnv1a(&[0xA5; 3]);
    let refused = player.play(&Step::Write(3));
    assert!(refused.starts_with("write 31 0 4 "));
    assert!(refused.ends_with(&format!(" {out:016x}")));
}

#[test]
fn pokes_and_resizes() {
    let mut player = Player::default();
    let poke = |offset: u32| Step::Poke {
        store: 2,
        offset,
        byte: 7,
    };
    let resize = |length: u32| Step::Resize { store: 2, length };
    assert_eq!(player.stores().0[CLOSURE].len(), 10_240 + 16);
    assert!(player.play(&poke(3)).starts_with("poke 0 0 0 "));
    assert_eq!(player.stores().0[CLOSURE][..5], [0, 0, 0, 7, 0]);
    assert!(player.play(&Step::Audit).starts_with("audit 3 0 0 "));
    assert!(player.play(&resize(4)).starts_with("resize 0 0 0 "));
    assert!(player.play(&poke(4)).starts_with("poke 0 0 0 "));
    player.play(&resize(6));
    assert_eq!(player.stores().0[CLOSURE], [0, 0, 0, 7, 0xA5, 0xA5]);
    assert!(player.play(&Step::Audit).starts_with("audit 1 0 0 "));
}

#[test]
fn a_small_script_has_all_steps_and_nothing_over_its_limit() {
    let mut names = BTreeSet::new();
    for step in Script::new(4, Kind::Small).take(2000) {
        names.insert(step.name());
        if let Step::Write(length) | Step::Resize { length, .. } = step {
            assert!(length <= replay::SMALL);
        }
    }
    assert_eq!(names.len(), 8);
}

/// The numbers that a call gives in these lines.
fn numbers<'a>(lines: &'a str, name: &str) -> BTreeSet<&'a str> {
    let words = lines.lines().map(|line| line.split(' '));
    let named = words.filter_map(|mut words| words.next().filter(|w| *w == name).and(words.next()));
    named.collect()
}

/// The script made at random that the Rattle player plays in the gate.
#[test]
fn the_stored_script_meets_most_numbers() {
    let file = concat!(env!("CARGO_MANIFEST_DIR"), "/../../crates/replay/stdin");
    let script = std::fs::read(file).unwrap_or_default();
    assert!(script.len() <= replay::SMALL as usize);
    let mut player = Player::default();
    let played = steps(&script).map(|step| step.map(|step| player.play(&step) + "\n"));
    let lines = played.collect::<Result<String, Unplayable>>();
    let lines = lines.unwrap_or_default();
    assert!(lines.lines().count() > 200);
    for name in ["plain", "quick"] {
        let met = numbers(&lines, name);
        assert!(met.contains("0") && met.contains("45") && met.len() > 25);
        let inheritance = ["38", "39", "40"];
        assert!(inheritance.iter().any(|number| met.contains(number)));
    }
}
