//! Saving: a kill at any moment, a full disk, a closed output, two at once.
#![allow(clippy::unwrap_used, clippy::expect_used)]

mod common;

use common::{copied, done, folder, kept};
use generate::Random;
use std::ffi::OsStr;
use std::fs;
use std::os::unix::ffi::OsStrExt;
use std::os::unix::fs::{MetadataExt, PermissionsExt, chown, symlink};
use std::os::unix::process::{CommandExt, ExitStatusExt};
use std::path::Path;
use std::process::{Command, Output, Stdio};
use std::time::Duration;

fn keeper() -> Command {
    let mut keeper = Command::new(env!("CARGO_BIN_EXE_keeper"));
    keeper.stdout(Stdio::null()).stderr(Stdio::null());
    keeper
}

const THERE: &str = "rename attribute areaHa woodedHa";
const BACK: &str = "rename attribute woodedHa areaHa";

/// Killed at any moment, the file is the old or the new one, and the next change
/// is made whatever was left lying beside it.
#[test]
fn a_kill_leaves_the_old_file_or_the_new_one() {
    let folder = folder("kill");
    let mut random = Random::for_test(16);
    let (mut seen, mut killed) = ([0; 2], 0);
    for sample in ["forest.sheet", "forest.schema"] {
        let file = copied(&folder, sample);
        let old = fs::read(&file).unwrap();
        done(&["change", &file, THERE]);
        let new = fs::read(&file).unwrap();
        done(&["change", &file, BACK]);
        assert!(old != new && fs::read(&file).unwrap() == old);
        for _ in 0..200 {
            let before = fs::read(&file).unwrap();
            let change = if before == old { THERE } else { BACK };
            let mut child = keeper().args(["change", &file, change]).spawn().unwrap();
            std::thread::sleep(Duration::from_micros(random.below(6000) as u64));
            let _ = child.kill();
            killed += usize::from(child.wait().unwrap().signal().is_some());
            let after = fs::read(&file).unwrap();
            assert!(after == old || after == new, "{} bytes", after.len());
            seen[usize::from(after != before)] += 1;
        }
        assert_eq!(common::ran(&["check", &file]).code, 0);
    }
    eprintln!(
        "{killed} of 400 saves were killed before they ended; {} left the old file",
        seen[0]
    );
    assert!(
        killed >= 50 && seen.iter().all(|count| *count > 0),
        "{killed} {seen:?}"
    );
    let _ = fs::remove_dir_all(folder);
}

/// With a limit on the length of files no new file can be written.
#[test]
fn a_full_disk_leaves_the_old_file() {
    let folder = folder("full");
    let file = copied(&folder, "forest.sheet");
    let old = fs::read(&file).unwrap();
    let shell = "trap '' XFSZ; ulimit -f 4; exec \"$0\" change \"$1\" \"$2\"";
    let output = Command::new("bash")
        .args(["-c", shell, env!("CARGO_BIN_EXE_keeper"), &file, THERE])
        .output()
        .unwrap();
    assert_eq!(output.status.code(), Some(2));
    let words = String::from_utf8_lossy(&output.stderr).into_owned();
    assert!(
        words.starts_with(&format!(
            "{file}: cannot be saved and is as it was: File too large"
        )),
        "{words}"
    );
    assert!(fs::read(&file).unwrap() == old);
    assert_eq!(
        fs::read_dir(&folder).unwrap().count(),
        1,
        "nothing is left beside it"
    );
    let _ = fs::remove_dir_all(folder);
}

/// A file system of a few pages that is full, where one may be mounted.
#[test]
fn a_small_file_system_that_is_full_leaves_the_old_file() {
    let folder = folder("small");
    let place = folder.to_string_lossy().into_owned();
    let mount = Command::new("mount")
        .args(["-t", "tmpfs", "-o", "size=16k", "none", &place])
        .output();
    if !mount.is_ok_and(|output| output.status.success()) {
        eprintln!("no file system may be mounted here: nothing is tested");
        return;
    }
    let file = copied(&folder, "forest.sheet");
    let old = fs::read(&file).unwrap();
    let output = Command::new(env!("CARGO_BIN_EXE_keeper"))
        .args(["change", &file, THERE])
        .output()
        .unwrap();
    let words = String::from_utf8_lossy(&output.stderr).into_owned();
    let after = fs::read(&file).unwrap();
    let count = fs::read_dir(&folder).unwrap().count();
    Command::new("umount").arg(&place).status().unwrap();
    assert_eq!(output.status.code(), Some(2), "{words}");
    assert!(
        words.contains("cannot be saved and is as it was: No space left on device"),
        "{words}"
    );
    assert!(after == old && count == 1);
    let _ = fs::remove_dir_all(folder);
}

#[test]
fn an_output_that_cannot_be_written_is_told_and_nothing_is_saved() {
    let folder = folder("output");
    let file = copied(&folder, "forest.sheet");
    let old = fs::read(&file).unwrap();
    for words in [
        vec!["list", &file],
        vec!["page", &file],
        vec!["change", &file, THERE],
    ] {
        let full = fs::File::options().write(true).open("/dev/full").unwrap();
        let output = Command::new(env!("CARGO_BIN_EXE_keeper"))
            .args(&words)
            .stdout(full)
            .output()
            .unwrap();
        assert_eq!(output.status.code(), Some(2), "{words:?}");
        let said = String::from_utf8_lossy(&output.stderr).into_owned();
        assert_eq!(
            said,
            "the output cannot be written: No space left on device (os error 28)\n"
        );
        // Whoever reads has gone: nothing is said, for nobody asked.
        let (reader, writer) = std::io::pipe().unwrap();
        drop(reader);
        let mut keeper = Command::new(env!("CARGO_BIN_EXE_keeper"));
        let output = keeper.args(&words).stdout(writer).output().unwrap();
        assert_eq!(output.status.code(), Some(2), "{words:?}");
        assert_eq!(output.stderr, b"", "{words:?}");
    }
    assert!(fs::read(&file).unwrap() == old);
    let _ = fs::remove_dir_all(folder);
}

/// Where there is no standard output at all (`>&-`), nothing can be said; the
/// change is made all the same, and the exit code tells.
#[test]
fn without_a_standard_output_the_exit_code_tells() {
    let folder = folder("closed");
    let file = copied(&folder, "forest.schema");
    let old = fs::read(&file).unwrap();
    let closed = |change: &str| {
        let line = format!("exec \"$0\" change \"$1\" {change} >&-");
        let mut shell = Command::new("sh");
        shell.args(["-c", &line, env!("CARGO_BIN_EXE_keeper"), &file]);
        shell.stderr(std::process::Stdio::null()).status().unwrap()
    };
    let refused = closed("rename attribute soilType AREAHA");
    assert_eq!(refused.code(), Some(1));
    assert!(fs::read(&file).unwrap() == old);
    let done = closed("rename attribute soilType soilKind");
    assert_eq!(done.code(), Some(0));
    assert!(fs::read_to_string(&file).unwrap().contains("soilKind"));
    let _ = fs::remove_dir_all(folder);
}

#[test]
fn changes_at_once_are_all_made() {
    let folder = folder("once");
    let file = copied(&folder, "forest.schema");
    let names = [
        "soilType",
        "slopePercent",
        "elevationM",
        "outline",
        "certificate",
        "auditedOn",
        "taxNumber",
        "mail",
    ];
    let children = names.map(|name| {
        keeper()
            .args(["change", &file, "add", "optional", "species", name])
            .spawn()
            .unwrap()
    });
    for mut child in children {
        assert_eq!(child.wait().unwrap().code(), Some(0));
    }
    let shown = done(&["show", &file, "species"]);
    assert!(
        names
            .iter()
            .all(|name| shown.contains(&format!("  {name} "))),
        "{shown}"
    );
    let _ = fs::remove_dir_all(folder);
}

#[test]
fn a_link_and_the_rights_of_a_file_stay() {
    let folder = folder("link");
    let file = copied(&folder, "forest.sheet");
    fs::set_permissions(&file, fs::Permissions::from_mode(0o640)).unwrap();
    let link = folder.join("link").to_string_lossy().into_owned();
    symlink(&file, &link).unwrap();
    done(&["change", &link, THERE]);
    assert!(fs::symlink_metadata(&link).unwrap().is_symlink());
    assert_eq!(fs::metadata(&file).unwrap().mode() & 0o777, 0o640);
    assert!(done(&["show", &file, "woodedHa"]).starts_with("attribute 17 woodedHa\n"));
    // What a keeper that was killed left behind does not matter.
    kept(&folder, ".forest.sheet.keeper-new", b"half");
    done(&["change", &file, BACK]);
    assert!(fs::read(&file).unwrap() == fs::read("samples/forest.sheet").unwrap());
    let _ = fs::remove_dir_all(folder);
}

/// A user and a group of this number, and groups that he is not in.
const SOMEBODY: u32 = 65_534;
const FOREIGN: u32 = 54_321;
const FOLDERS: u32 = 12_345;

/// A save by somebody of a file that another user owns, in a folder whose new
/// files get the folder's group; none where only an administrator could try it.
fn saved_by_somebody(folder: &Path, group: u32, rights: u32) -> Option<(Output, fs::Metadata)> {
    let keeper = folder.join("keeper");
    fs::copy(env!("CARGO_BIN_EXE_keeper"), &keeper).unwrap();
    let file = copied(folder, "forest.sheet");
    chown(folder, None, Some(FOLDERS)).ok()?;
    fs::set_permissions(folder, fs::Permissions::from_mode(0o2777)).unwrap();
    chown(&file, Some(1), Some(group)).ok()?;
    fs::set_permissions(&file, fs::Permissions::from_mode(rights)).unwrap();
    let mut keeper = Command::new(keeper);
    keeper.uid(SOMEBODY).gid(SOMEBODY);
    let output = keeper.args(["change", &file, THERE]).output().ok()?;
    Some((output, fs::metadata(&file).unwrap()))
}

#[test]
fn the_group_stays_or_no_group_gets_its_rights() {
    let folder = folder("group");
    let lost = "its group cannot be kept, so no group has rights to it any more";
    for (group, rights, left, words) in [
        (SOMEBODY, 0o660, (SOMEBODY, 0o660), ""),
        (FOREIGN, 0o604, (FOLDERS, 0o604), ""),
        (FOREIGN, 0o664, (FOLDERS, 0o604), lost),
    ] {
        let Some((output, file)) = saved_by_somebody(&folder, group, rights) else {
            eprintln!("no file may be given to another user here: nothing is tested");
            break;
        };
        let said = String::from_utf8_lossy(&output.stderr).into_owned();
        assert_eq!(output.status.code(), Some(0), "{said}");
        assert_eq!((file.gid(), file.mode() & 0o7777), left, "{said}");
        assert!(
            said.contains(words) && said.is_empty() == words.is_empty(),
            "{said}"
        );
    }
    let _ = fs::remove_dir_all(folder);
}

/// Files whose names are no UTF-8 do not share the name beside them.
#[test]
fn names_of_any_bytes_are_kept_apart() {
    let folder = folder("bytes");
    let file = folder.join(OsStr::from_bytes(b"a\xFF"));
    fs::copy("samples/forest.sheet", &file).unwrap();
    // What another file's keeper would write; as a folder it cannot be removed.
    for other in [
        b".a\xFE.keeper-new".as_slice(),
        ".a\u{FFFD}.keeper-new".as_bytes(),
    ] {
        fs::create_dir(folder.join(OsStr::from_bytes(other))).unwrap();
    }
    let status = keeper().arg("change").arg(&file).arg(THERE).status();
    assert_eq!(status.unwrap().code(), Some(0));
    assert!(fs::read(&file).unwrap() != fs::read("samples/forest.sheet").unwrap());
    let _ = fs::remove_dir_all(folder);
}
