//! Random texts, LDIF files, sheets and changes: no panic, and every refusal in
//! words.
#![allow(clippy::unwrap_used, clippy::expect_used)]

mod common;

use common::{Ran, done, fed, folder, kept};
use generate::Random;
use std::fs;
use std::sync::LazyLock;

/// How many inputs of each kind.
const COUNT: u64 = 10_000;

/// Every number that refuses, with its name.
static NAMED: LazyLock<Vec<String>> = LazyLock::new(|| {
    let refusals = tool::numbers::sections().filter(|section| section.number > 0);
    refusals
        .map(|section| tool::numbers::named(section.number))
        .collect()
});

/// A run says what it did: an exit code, and words with it.
fn assert_words(ran: &Ran, input: &str) {
    assert!(ran.code <= 2, "{input}");
    let said = format!("{}{}", ran.text(), ran.err);
    let is_plain = |letter: char| letter == '\n' || !letter.is_control();
    assert!(said.chars().all(is_plain), "{input}: {said}");
    match ran.code {
        0 => {}
        1 => {
            let is_told = NAMED.iter().any(|named| said.contains(named.as_str()))
                || said.contains("# cannot be changed: ");
            assert!(is_told, "{input}: {said}");
        }
        _ => assert!(ran.err.trim().contains(' '), "{input}: {said}"),
    }
}

/// Lines of a text taken out, doubled, swapped, cut and changed in a word.
fn spoiled(random: &mut Random, lines: &[&str], words: &[&str]) -> String {
    let mut lines: Vec<String> = lines.iter().map(|line| (*line).to_owned()).collect();
    for _ in 0..1 + random.below(4) {
        if lines.is_empty() {
            break;
        }
        let (at, other) = (random.below(lines.len()), random.below(lines.len()));
        match random.below(8) {
            0 => {
                lines.remove(at);
            }
            1 => lines.insert(other, lines[at].clone()),
            2 => lines.swap(at, other),
            3 => lines.truncate(at),
            4 => lines.insert(
                at,
                String::from_utf8_lossy(&random.bytes(12)).replace('\0', " "),
            ),
            _ => lines[at] = reworded(random, &lines[at], words),
        }
    }
    lines.join("\n") + "\n"
}

/// A line with one of its words replaced, doubled or left out.
fn reworded(random: &mut Random, line: &str, words: &[&str]) -> String {
    let indent = if line.starts_with(' ') { " " } else { "" };
    let mut parts: Vec<&str> = line.split_whitespace().collect();
    let at = random.below(parts.len());
    let word = random.pick(words).copied().unwrap_or("x");
    match (random.below(4), parts.get_mut(at)) {
        (0, Some(_)) => {
            parts.remove(at);
        }
        (1, _) => parts.push(word),
        (_, Some(part)) => *part = word,
        (_, None) => {}
    }
    format!("{indent}{}", parts.join(" "))
}

const ODD: [&str; 14] = [
    "",
    "0",
    "-1",
    "4294967295",
    "99999999999",
    "127",
    "ÿ",
    "a\u{7f}b",
    "none",
    "2.5",
    "..",
    "attribute",
    "class",
    "::",
];

/// All words of a text and some that fit nowhere.
fn vocabulary(text: &str) -> Vec<&str> {
    text.split_whitespace().chain(ODD).collect()
}

/// One of the commands that read a schema, on this input.
fn any_command(random: &mut Random, input: &[u8]) -> Ran {
    let commands: [&[&str]; 9] = [
        &["check", "-"],
        &["list", "-"],
        &["tree", "-"],
        &["show", "-", "stand"],
        &["page", "-"],
        &["export", "-"],
        &["export", "--text", "-"],
        &["diff", "samples/forest.sheet", "-"],
        &["import", "--anyway", "-"],
    ];
    let command = random.pick(&commands).unwrap();
    fed(command, input)
}

#[test]
fn random_texts() {
    common::top();
    let text = fs::read_to_string("samples/forest.schema").unwrap();
    let lines: Vec<&str> = text.lines().collect();
    let words = vocabulary(&text);
    let mut accepted = 0;
    for number in 0..COUNT {
        let mut random = Random::nth(1, number);
        let text = spoiled(&mut random, &lines, &words);
        let ran = any_command(&mut random, text.as_bytes());
        assert_words(&ran, &text);
        accepted += usize::from(ran.code == 0);
    }
    assert!(accepted > 200, "{accepted}");
}

#[test]
fn random_ldif() {
    let text = done(&["export", "samples/forest.sheet"]);
    let lines: Vec<&str> = text.lines().collect();
    let words = vocabulary(&text);
    let mut accepted = 0;
    for number in 0..COUNT {
        let mut random = Random::nth(2, number);
        let text = spoiled(&mut random, &lines, &words);
        let ran = match random.below(3) {
            0 => fed(&["import", "-", "--only", "stand", "mail"], text.as_bytes()),
            _ => any_command(&mut random, text.as_bytes()),
        };
        assert_words(&ran, &text);
        accepted += usize::from(ran.code == 0);
    }
    assert!(accepted > 200, "{accepted}");
}

#[test]
fn random_sheets() {
    common::top();
    let sheet = fs::read("samples/forest.sheet").unwrap();
    for number in 0..COUNT {
        let mut random = Random::nth(3, number);
        let mut bytes = sheet.clone();
        for _ in 0..1 + random.below(3) {
            let at = random.below(bytes.len());
            match random.below(3) {
                0 => bytes.truncate(at.max(1)),
                1 => bytes.insert(at, random.byte()),
                _ => bytes[at] = random.byte(),
            }
        }
        let ran = any_command(&mut random, &bytes);
        assert_words(&ran, &format!("sheet {number}"));
    }
}

/// A change in words, of rows of the forest for the most part.
fn change(random: &mut Random, names: &[&str], words: &[&str]) -> String {
    let name = |random: &mut Random| random.pick(names).copied().unwrap_or("x");
    let (one, other) = (name(random), name(random));
    let table = if random.once_in(2) {
        "attribute"
    } else {
        "class"
    };
    let list = random
        .pick(&["optional", "auxiliary", "superior"])
        .copied()
        .unwrap_or("x");
    let number = |random: &mut Random| random.u32().cast_signed().to_string();
    let change = match random.below(8) {
        0 => format!("rename {table} {one} {other}"),
        1 => format!("rename {table} {one} name{}", random.below(1000)),
        2 => format!(
            "range attribute {one} {} {}",
            number(random),
            number(random)
        ),
        3 => format!("add {list} {one} {other}"),
        4 => format!("remove {list} {one} {other}"),
        5 => format!("deactivate {table} {one}"),
        6 => format!("reactivate {table} {one}"),
        _ => addition(random, table, one, other),
    };
    match random.once_in(60) {
        true => reworded(random, &change, words),
        false => change,
    }
}

/// A row to be added, under one name and another.
fn addition(random: &mut Random, table: &str, one: &str, other: &str) -> String {
    let categories = ["structural", "auxiliary", "88", "abstract"];
    let category = random.pick(&categories).copied().unwrap_or("88");
    let (guid, syntax, arc) = (random.number(), random.below(18), random.below(9));
    let head = format!("add {table} new{one} 2.999.{arc}; guid {guid:032x}");
    match table {
        "attribute" => format!("{head}; syntax {syntax} 64; single"),
        _ => format!("{head}; {category}; under {other}; may {one}"),
    }
}

/// The names of the forest's rows, and one that is nowhere.
fn names(text: &str) -> Vec<&str> {
    let heads = text
        .lines()
        .filter(|line| line.starts_with("attribute") || line.starts_with("class"));
    let names = heads.filter_map(|head| head.split_whitespace().nth(1));
    names.chain(["nowhere"]).collect()
}

/// Lists of changes, by the quick call and by the whole one: the same answers.
#[test]
fn random_changes() {
    common::top();
    let sheet = fs::read("samples/forest.sheet").unwrap();
    let text = fs::read_to_string("samples/forest.schema").unwrap();
    let (names, words) = (names(&text), vocabulary(&text));
    let folder = folder("random");
    let mut made = 0;
    for number in 0..COUNT / 10 {
        let mut random = Random::nth(4, number);
        let changes = (0..10).map(|_| change(&mut random, &names, &words));
        let changes = changes.collect::<Vec<_>>().join("\n").replace(';', "\n");
        let list = kept(&folder, "changes", changes.as_bytes());
        let tried = |option: &str| {
            let words = [
                "change",
                "--dry-run",
                "--each",
                option,
                "--from",
                &list,
                "-",
            ];
            fed(&words, &sheet)
        };
        let (ran, whole) = (tried("--each"), tried("--whole"));
        assert_words(&ran, &changes);
        made += ran
            .text()
            .lines()
            .filter(|line| line.starts_with("done: "))
            .count();
        assert_eq!(
            (ran.code, ran.out, ran.err),
            (whole.code, whole.out, whole.err)
        );
    }
    assert!(made > 500, "{made}");
    let _ = fs::remove_dir_all(folder);
}

/// Words of command lines beside the commands themselves.
const WORDS: [&str; 17] = [
    "--help",
    "--each",
    "--only",
    "--from",
    "--title",
    "--base",
    "--sheet",
    "--",
    "-",
    "-5",
    "--x",
    "13",
    "stand",
    "samples/forest.sheet",
    "samples/refused.sheet",
    "samples",
    "samples/forest.txt",
];

/// Words at random on the command line.
#[test]
fn random_command_lines() {
    let names = tool::commands::COMMANDS.iter().map(|command| command.name);
    let names: Vec<&str> = names.chain(["help", "nothing"]).collect();
    let words: Vec<&str> = names.iter().copied().chain(WORDS).collect();
    for number in 0..COUNT {
        let mut random = Random::nth(5, number);
        let mut line: Vec<&str> = vec![random.pick(&names).unwrap()];
        // A change on the command line could save: a dry run cannot.
        if line[0] == "change" {
            line.push("--dry-run");
        }
        line.extend((0..random.below(4)).map(|_| *random.pick(&words).unwrap()));
        let ran = fed(&line, b"class top 2.5\n");
        assert_words(&ran, &line.join(" "));
    }
}
