//! Help and the man page: each command has an example, and examples are run.
#![allow(clippy::unwrap_used, clippy::expect_used)]

mod common;

use common::{copied, done, folder, ran, refused};
use std::fs;
use std::process::{Command, Stdio};
use tool::commands::COMMANDS;

#[test]
fn the_overview_lists_every_command() {
    let overview = done(&["--help"]);
    for command in COMMANDS {
        assert!(
            overview.contains(&format!("\n  {:<9} {}\n", command.name, command.summary)),
            "{}",
            command.name
        );
    }
    assert_eq!(done(&["help"]), overview);
    assert_eq!(ran(&[]).err, overview);
    assert!(done(&["--version"]).starts_with("keeper "));
    assert!(refused(2, &["help", "nothing"]).starts_with("nothing: no such command"));
}

#[test]
fn every_command_has_help_with_an_example() {
    for command in COMMANDS {
        let help = done(&[command.name, "--help"]);
        assert_eq!(done(&["help", command.name]), help);
        assert!(help.starts_with(&format!("keeper {}\n\n", command.usage)));
        let example = help.split("\nExample:\n\n").nth(1).unwrap_or_default();
        assert!(
            example.contains("keeper ") && example.contains(command.name),
            "{help}"
        );
        let is_short = |line: &str| line.starts_with("    ") || line.chars().count() <= 82;
        assert!(help.lines().skip(3).all(is_short), "{help}");
    }
}

/// The examples of commands that read one file print what they say, up to `..`.
#[test]
fn examples_are_as_they_are_told() {
    let folder = folder("help");
    let file = copied(&folder, "forest.sheet");
    for name in ["check", "list", "show", "tree", "explain", "change"] {
        let help = done(&[name, "--help"]);
        let example = help.split("\nExample:\n\n").nth(1).unwrap();
        for run in example.split("    $ keeper ").skip(1) {
            let (words, expected) = run.split_once('\n').unwrap();
            let words = words.replace(" forest.sheet", &format!(" {file}"));
            let ran = ran(&words.split(' ').collect::<Vec<_>>());
            let said = format!("{}{}", ran.text(), ran.err).replace(&file, "forest.sheet");
            let expected = expected.split("    ..").next().unwrap().trim_end();
            for (said, expected) in said.lines().zip(expected.lines()) {
                let words = |line: &str| line.split_whitespace().collect::<Vec<_>>().join(" ");
                assert_eq!(words(said), words(expected), "{name}");
            }
        }
    }
    let _ = fs::remove_dir_all(folder);
}

#[test]
fn the_man_page_has_every_command_and_no_warning() {
    let page = done(&["man"]);
    for command in COMMANDS {
        assert!(
            page.contains(&format!("\n.SS keeper {}", command.name)),
            "{}",
            command.name
        );
    }
    let folder = folder("man");
    let file = common::kept(&folder, "keeper.1", page.as_bytes());
    let groff = Command::new("groff")
        .args(["-man", "-ww", "-Tutf8", "-z", &file])
        .stdin(Stdio::null())
        .output();
    match groff {
        Ok(output) => assert_eq!(String::from_utf8_lossy(&output.stderr), ""),
        Err(_) => eprintln!("groff is not installed: the page is not set"),
    }
    let _ = fs::remove_dir_all(folder);
}

/// The first steps of README.md, made: each does what the page says of it.
#[test]
fn the_first_steps_of_the_readme_are_as_told() {
    let folder = folder("readme");
    let file = copied(&folder, "forest.schema");
    let readme = fs::read_to_string("README.md").unwrap();
    let steps = readme
        .split("    cp samples/forest.schema .\n")
        .nth(1)
        .unwrap();
    let steps = steps
        .lines()
        .map_while(|line| line.strip_prefix("    keeper "));
    let mut codes = Vec::new();
    for step in steps {
        let words = step
            .split(" > ")
            .next()
            .unwrap()
            .replace("forest.schema", &file);
        let ran = ran(&words.split(' ').collect::<Vec<_>>());
        codes.push(ran.code);
        if ran.code == 1 {
            let said = format!("{}{}", ran.text(), ran.err).replace(&file, "forest.schema");
            let told: String = said.lines().map(|line| format!("    {line}\n")).collect();
            assert!(readme.contains(&told), "{told}");
        }
    }
    assert_eq!(codes, [0, 0, 1, 0, 0]);
    assert!(done(&["show", &file, "stand"]).contains("\n  rotationYears       through stand\n"));
    let _ = fs::remove_dir_all(folder);
}
