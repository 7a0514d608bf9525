//! Schemas at random: each form comes back, refusals have the independent
//! program's number and row, and the changes of a diff lead where they say.
#![allow(clippy::unwrap_used, clippy::expect_used)]

mod common;

use common::{done, fed, folder, kept};
use generate::{Random, changes, schemas, sheets};
use keeper::Stores;
use reference::rules::RULES;
use std::collections::{BTreeMap, BTreeSet};
use std::fs;

#[test]
fn each_form_comes_back() {
    for number in 0..150 {
        let sheet = sheets::sound(&mut Random::nth(21, number));
        let given = fed(&["export", "--sheet", "-"], &sheet);
        assert_eq!((given.code, given.err.as_str()), (0, ""));
        for words in [["export", "--text", "-"], ["export", "--ldif", "-"]] {
            let written = fed(&words, &sheet);
            // A schema of no rows is an empty text, and LDIF without entries.
            if written.out.len() > 12 {
                let back = fed(&["export", "--sheet", "-"], &written.out);
                assert!(back.out == given.out, "{number} {words:?} {}", back.err);
            }
        }
        for words in [["list", "-"], ["tree", "-"], ["page", "-"]] {
            assert_eq!(fed(&words, &sheet).code, 0, "{number}");
        }
    }
}

/// What the independent program answers to a load.
fn answer(sheet: &[u8]) -> reference::Answer {
    reference::Stores::default().load(sheet)
}

/// The number that a refusal tells is the independent program's, and the row that
/// it names is among the rows told; a place of number 4 is told too.
#[test]
fn refusals_tell_number_and_row() {
    let mut seen = BTreeSet::new();
    for number in 0..3000 {
        let sheet = sheets::any(&mut Random::nth(22, number));
        let (answer, ran) = (answer(&sheet), fed(&["check", "-"], &sheet));
        // Noise that neither begins as a sheet nor has a zero byte is taken for a text.
        if sheet.first() != Some(&0x01) && !sheet.contains(&0) {
            continue;
        }
        assert_eq!(ran.code, u8::from(answer.number != 0), "{number}");
        if ran.code == 0 {
            continue;
        }
        let line = ran.err.lines().nth(1).unwrap();
        assert!(
            line.starts_with(&format!("{}, ", answer.number)),
            "{number}: {line}"
        );
        let place = match (answer.number, answer.table) {
            (4, _) => format!(": byte {} of {}, ", answer.place, sheet.len()),
            (6, _) => format!("there is room for {}: ", answer.place),
            (_, 1) => format!("attribute {} `", answer.place),
            _ => format!("class {} `", answer.place),
        };
        assert!(line.contains(&place), "{number}: {line}");
        seen.insert(answer.number);
    }
    let told = RULES.into_iter().chain([4, 6]);
    let missing: Vec<_> = told.filter(|number| !seen.contains(number)).collect();
    assert!(missing.is_empty(), "{missing:?}");
}

/// A schema, changes made to it, and the changes that a diff tells: made to the
/// first, they leave nothing different.
#[test]
fn the_changes_of_a_diff_lead_to_the_other_schema() {
    let folder = folder("diffs");
    let (mut led, mut total) = (0, 0);
    for number in 0..150 {
        let mut random = Random::nth(23, number);
        let size = schemas::Size::typical(&mut random);
        let schema = schemas::schema(&mut random, size);
        let old = reference::writing::sheet(&schema);
        let mut stores =
            Stores::loaded(&old).unwrap_or_else(|_| Stores::loaded(&[1, 0, 1, 1]).unwrap());
        for _ in 0..12 {
            let change = changes::plausible(&mut random, &schema);
            stores.quick_change(&changes::bytes(&change));
        }
        let old = kept(&folder, "old.sheet", &old);
        let new = kept(&folder, "new.sheet", &stores.sheet().unwrap());
        let diff = common::ran(&["diff", &old, &new]);
        total += 1;
        if diff.code == 0 {
            led += 1;
            let list = kept(&folder, "changes", diff.text().as_bytes());
            done(&["change", "--from", &list, &old]);
            assert_eq!(done(&["diff", &old, &new]), "", "{number}");
            assert!(
                fs::read(&old).unwrap() == fs::read(&new).unwrap(),
                "{number}"
            );
        } else {
            assert!(
                diff.text().contains("# cannot be changed: "),
                "{number}: {}",
                diff.err
            );
        }
    }
    assert!(led * 20 >= total * 19, "{led} of {total}");
    let _ = fs::remove_dir_all(folder);
}

/// A text with some rows' names given to others, each where it stands as a name.
fn mixed(random: &mut Random, text: &str) -> String {
    let is_head = |line: &&str| line.starts_with("attribute ") || line.starts_with("class ");
    let heads = text.lines().filter(is_head);
    let names: Vec<&str> = heads
        .filter_map(|head| head.split_whitespace().nth(1))
        .collect();
    let some = (0..1 + random.below(5)).filter_map(|_| random.pick(&names).copied());
    let some: BTreeSet<&str> = some.collect();
    let others = some.iter().cycle().skip(1);
    let new_names: BTreeMap<&str, &str> = some.iter().copied().zip(others.copied()).collect();
    let new_name = |name: &str| new_names.get(name).map_or(name, |name| name).to_owned();
    let line = |line: &str| {
        let mut words: Vec<String> = line.split_whitespace().map(str::to_owned).collect();
        let names = match words.first().map(String::as_str) {
            Some("attribute" | "class") => 1..2,
            Some("under" | "naming" | "must" | "may" | "aux" | "in") => 1..words.len(),
            Some("system-may" | "system-aux" | "system-in") => 1..words.len(),
            _ => 0..0,
        };
        for word in &mut words[names] {
            *word = new_name(word);
        }
        words.join(" ") + "\n"
    };
    text.lines().map(line).collect()
}

/// Whatever a diff tells, made to the first schema, leaves nothing that changes
/// could do, and no row under a name for a moment.
#[test]
fn a_diff_tells_all_that_can_be_done() {
    let folder = folder("mixed");
    let (mut led, mut left) = (0, 0);
    for number in 0..300 {
        let mut random = Random::nth(25, number);
        let sheet = sheets::sound(&mut random);
        let text = fed(&["export", "--text", "-"], &sheet).text();
        let mut new = mixed(&mut random, &text);
        let guid = "guid 00112233445566778899aabbccddeeff";
        let row = format!("attribute added 2.999.1.2.3\n{guid}\nsyntax 9 2\n");
        match random.below(3) {
            0 => new += &row,
            1 => new = row + &new,
            _ => {}
        }
        if text.is_empty() || fed(&["check", "-"], new.as_bytes()).code != 0 {
            continue;
        }
        let old = kept(&folder, "old.sheet", &sheet);
        let diff = fed(&["diff", &old, "-"], new.as_bytes());
        let list = kept(&folder, "changes", &diff.out);
        done(&["change", "--from", &list, &old]);
        let again = fed(&["diff", &old, "-"], new.as_bytes());
        assert_eq!(again.code, diff.code, "{number}: {}", diff.text());
        let is_left = |line: &str| line.starts_with("# cannot be changed: ");
        assert!(
            again.text().lines().all(is_left),
            "{number}: {}",
            again.text()
        );
        assert!(!done(&["list", &old]).contains("keeper-"), "{number}");
        *(if diff.code == 0 { &mut led } else { &mut left }) += 1;
    }
    assert!(led > 50 && left > 50, "{led} {left}");
    let _ = fs::remove_dir_all(folder);
}
