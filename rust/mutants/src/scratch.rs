//! A copy of the Rust side, in which the edits are made and built.

use crate::edit::Edit;
use std::fs;
use std::io;
use std::path::{Path, PathBuf};
use std::process::Command;

/// What came of an edit.
pub enum Built {
    /// The players are those of the wrong reference.
    Players,
    /// The edit cannot be made, or does not compile: the list is wrong.
    Nothing(String),
}

/// The copy.
pub struct Scratch {
    folder: PathBuf,
}

impl Scratch {
    /// A copy of a folder, made new but for what was built there before.
    pub fn new(rust: &Path) -> io::Result<Scratch> {
        let folder = rust.join("target/mutants");
        copy(rust, &folder)?;
        Ok(Scratch { folder })
    }

    /// A program that was built here.
    pub fn program(&self, name: &str) -> PathBuf {
        self.folder.join("target/debug").join(name)
    }

    /// The copy as it is, built.
    pub fn build(&self) -> io::Result<Built> {
        let mut cargo = Command::new("cargo");
        let built = cargo
            .args(["build", "--offline", "--quiet", "--package", "replay"])
            .args(["--bin", "replay-reference", "--bin", "list-reference"])
            .env("CARGO_INCREMENTAL", "1")
            .env("CARGO_PROFILE_DEV_OPT_LEVEL", "1")
            .env("CARGO_PROFILE_DEV_DEBUG", "false")
            .env("RUSTFLAGS", "-Awarnings")
            .env_remove("CARGO_TARGET_DIR")
            .current_dir(&self.folder)
            .output()?;
        if built.status.success() {
            return Ok(Built::Players);
        }
        Ok(Built::Nothing(
            String::from_utf8_lossy(&built.stderr).into_owned(),
        ))
    }

    /// The copy with an edit, built; afterwards the copy is as before.
    pub fn build_edited(&self, edit: &Edit) -> io::Result<Built> {
        let file = self.folder.join("reference/src").join(&edit.file);
        let text = fs::read_to_string(&file)?;
        let Some(edited) = edit.made(&text) else {
            return Ok(Built::Nothing("the old text is not there once".to_string()));
        };
        fs::write(&file, edited)?;
        let built = self.build();
        fs::write(&file, text)?;
        built
    }
}

/// Copies a folder's files, but for what is built in it.
fn copy(from: &Path, to: &Path) -> io::Result<()> {
    fs::create_dir_all(to)?;
    for entry in fs::read_dir(from)? {
        let entry = entry?;
        let (source, copied) = (entry.path(), to.join(entry.file_name()));
        if entry.file_type()?.is_file() {
            fs::copy(source, copied)?;
        } else if entry.file_name() != "target" {
            copy(&source, &copied)?;
        }
    }
    Ok(())
}
