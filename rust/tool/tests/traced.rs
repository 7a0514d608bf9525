//! A kill, and a failure of the disk, at each call of the system that a save
//! makes, by strace where it is installed.
#![allow(clippy::unwrap_used, clippy::expect_used)]

mod common;

use common::{copied, done, folder};
use std::fs;
use std::process::{Command, Stdio};

/// The calls that a save makes, and those around them.
const CALLS: [&str; 12] = [
    "openat",
    "flock",
    "statx",
    "read",
    "unlink",
    "fchmod",
    "fchown",
    "write",
    "fsync",
    "close",
    "rename",
    "exit_group",
];

const THERE: &str = "rename attribute areaHa woodedHa";
const BACK: &str = "rename attribute woodedHa areaHa";

/// A change with something done to the n-th call of a name: the exit code, none
/// where it was killed.
fn traced(file: &str, change: &str, what: &str) -> Option<i32> {
    let mut strace = Command::new("strace");
    strace
        .args(["-f", "-o", "/dev/null", "-e", what])
        .arg(env!("CARGO_BIN_EXE_keeper"));
    strace
        .args(["change", file, change])
        .stdout(Stdio::null())
        .stderr(Stdio::null());
    strace.status().unwrap().code().filter(|code| *code <= 2)
}

fn has_strace() -> bool {
    let tried = Command::new("strace")
        .args(["-o", "/dev/null", "true"])
        .output();
    let has = tried.is_ok_and(|output| output.status.success());
    if !has {
        eprintln!("strace is not installed, or may not be used: nothing is tested");
    }
    has
}

/// Does something to every call in turn and gives, for each, whether the run
/// ended by itself with exit code 0, and whether the file is the new one.
fn at_every_call(name: &str, what: &str) -> Vec<(Option<i32>, bool)> {
    let folder = folder(name);
    let file = copied(&folder, "forest.sheet");
    let old = fs::read(&file).unwrap();
    done(&["change", &file, THERE]);
    let new = fs::read(&file).unwrap();
    let mut ends = Vec::new();
    for call in CALLS {
        for number in 1..40 {
            let before = fs::read(&file).unwrap();
            let change = if before == old { THERE } else { BACK };
            let code = traced(
                &file,
                change,
                &format!("inject={call}:{what}:when={number}"),
            );
            let after = fs::read(&file).unwrap();
            assert!(after == old || after == new, "{call} {number}");
            ends.push((code, after != before));
            // So many calls of this name are not made.
            if code == Some(0) {
                break;
            }
        }
    }
    let _ = fs::remove_dir_all(folder);
    ends
}

/// Owner and rights are set through the open file, which nobody else may read
/// before, and never by a name, behind which a link could have been put.
#[test]
fn a_save_sets_owner_and_rights_of_the_open_file_alone() {
    if !has_strace() {
        return;
    }
    let folder = folder("handle");
    let file = copied(&folder, "forest.sheet");
    let calls = folder.join("calls");
    let status = Command::new("strace")
        .args(["-f", "-e", "trace=%desc,%file", "-o"])
        .arg(&calls)
        .args([env!("CARGO_BIN_EXE_keeper"), "change", &file, THERE])
        .stdout(Stdio::null())
        .status();
    assert!(status.unwrap().success());
    let calls = fs::read_to_string(&calls).unwrap();
    let new = |line: &&str| line.contains(".forest.sheet.keeper-new");
    let by_name: Vec<&str> = calls.lines().filter(new).collect();
    assert_eq!(by_name.len(), 3, "removed, made and renamed: {by_name:?}");
    assert!(by_name[0].contains("unlink"), "{by_name:?}");
    assert!(
        by_name[1].contains("O_EXCL") && by_name[1].contains(", 0600)"),
        "{by_name:?}"
    );
    assert!(by_name[2].contains("rename"), "{by_name:?}");
    assert!(
        calls.contains("fchown(") && calls.contains("fchmod("),
        "{calls}"
    );
    let _ = fs::remove_dir_all(folder);
}

#[test]
fn a_kill_at_any_call_leaves_the_old_file_or_the_new_one() {
    if !has_strace() {
        return;
    }
    let ends = at_every_call("killed", "signal=KILL");
    let killed = |wanted: bool| {
        let is_so = |(code, is_new): &&(Option<i32>, bool)| code.is_none() && *is_new == wanted;
        ends.iter().filter(is_so).count()
    };
    assert!(killed(false) > 20 && killed(true) > 0, "{ends:?}");
}

/// Where a call fails and the exit code is not 0, the file is the old one, but
/// where only the telling of it failed.
#[test]
fn a_failure_of_the_disk_at_any_call_leaves_the_old_file_or_the_new_one() {
    if !has_strace() {
        return;
    }
    let ends = at_every_call("failed", "error=ENOSPC");
    assert!(
        ends.iter()
            .filter(|(code, is_new)| *code == Some(2) && !is_new)
            .count()
            > 5,
        "{ends:?}"
    );
    assert!(
        ends.iter()
            .filter(|(code, _)| *code == Some(0))
            .all(|(_, is_new)| *is_new),
        "{ends:?}"
    );
}
