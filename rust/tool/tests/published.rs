//! A part of the schema that Microsoft publishes, where Debian's package
//! samba-ad-provision is installed, or where KEEPER_PUBLISHED names the folder
//! with its files.
#![allow(clippy::unwrap_used, clippy::expect_used)]

mod common;

use common::{Ran, fed};
use std::fs;
use std::path::PathBuf;

/// Attributes and classes of Windows Server 2016, if they are there.
fn published() -> Option<Vec<u8>> {
    let folder = std::env::var_os("KEEPER_PUBLISHED").map(PathBuf::from);
    let folder = folder.unwrap_or_else(|| PathBuf::from("/usr/share/samba/setup/ad-schema"));
    let file =
        |kind: &str| fs::read(folder.join(format!("AD_DS_{kind}__Windows_Server_2016.ldf"))).ok();
    Some([file("Attributes")?, file("Classes")?].concat())
}

fn import(ldif: &[u8], names: &[&str]) -> Ran {
    let words: Vec<_> = ["import", "-", "--anyway", "--only"]
        .iter()
        .chain(names)
        .copied()
        .collect();
    fed(&words, ldif)
}

/// Replica links as octet strings, as rust/import-published does it.
fn mended(text: &str) -> String {
    text.replace(
        "  syntax 10 127\n  object 2a864886f71401010106\n",
        "  syntax 10 4\n",
    )
}

#[test]
fn the_whole_is_too_large_and_a_part_fits() {
    let Some(ldif) = published() else {
        eprintln!("the published schema is not installed: nothing is tested");
        return;
    };
    let whole = fed(&["import", "-"], &ldif);
    assert_eq!(whole.code, 1);
    assert!(
        whole
            .err
            .contains("6, no free row: 1498 attributes, and there is room for 256"),
        "{}",
        whole.err
    );
    let part = import(&ldif, &["person", "group", "mailRecipient"]);
    assert_eq!(part.code, 1, "{}", part.err);
    assert!(part.err.contains("26, syntax misfit: "), "{}", part.err);
    let checked = fed(&["check", "-"], mended(&part.text()).as_bytes());
    assert_eq!((checked.code, checked.err.as_str()), (0, ""));
    let shown = fed(&["show", "-", "group"], mended(&part.text()).as_bytes()).text();
    assert!(
        shown.contains("\n  groupType             through group\n"),
        "{shown}"
    );
}
