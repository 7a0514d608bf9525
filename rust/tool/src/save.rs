//! A file replaced as a whole: a cut of power leaves the old or the new one, and
//! two keepers never replace it at once.

use crate::failure::Failure;
use crate::words::printable;
use std::ffi::OsString;
use std::fs::{self, File, Metadata, Permissions, TryLockError};
use std::io::{self, Read, Write};
use std::os::unix::fs::{MetadataExt, OpenOptionsExt, PermissionsExt, fchown};
use std::path::{Path, PathBuf};

/// A file that nobody else with a lock may replace, until this goes.
pub struct Locked {
    path: PathBuf,
    name: String,
    file: File,
}

impl Locked {
    /// Locks a file. Where another keeper holds it, this is told and waited for.
    pub fn new(path: &Path, err: &mut dyn Write) -> Result<Locked, Failure> {
        let name = printable(&path.to_string_lossy());
        let unusable = |words: String| Failure::unusable(format!("{name}: {words}"));
        let cannot = |error: io::Error| unusable(format!("cannot be read: {error}"));
        // What a link leads to is replaced, not the link.
        let path = fs::canonicalize(path).map_err(cannot)?;
        loop {
            // Looked at before it is opened, which would wait where it is a pipe.
            if !fs::metadata(&path).map_err(cannot)?.is_file() {
                return Err(unusable("is no file, so it cannot be replaced".to_owned()));
            }
            let file = File::open(&path).map_err(cannot)?;
            lock(&file, &name, err)
                .map_err(|error| unusable(format!("cannot be locked: {error}")))?;
            // Whoever held the lock may have put a new file here.
            if is_same(&file, &path) {
                return Ok(Locked { path, name, file });
            }
        }
    }

    /// What stands in the file, up to so many bytes.
    pub fn read(&mut self, limit: u64) -> Result<Vec<u8>, Failure> {
        let mut bytes = Vec::new();
        let read = (&mut self.file).take(limit).read_to_end(&mut bytes);
        read.map_err(|error| Failure::unusable(format!("{}: cannot be read: {error}", self.name)))?;
        Ok(bytes)
    }

    /// Puts a new file in place of the old one: written beside it, flushed to the
    /// disk, and renamed. Rights that could not be kept are told.
    pub fn replace(&self, bytes: &[u8], err: &mut dyn Write) -> Result<(), Failure> {
        let beside = self.beside();
        let written = self.write(&beside, bytes);
        let replaced = written.and_then(|kept| fs::rename(&beside, &self.path).map(|()| kept));
        let failure = |error| {
            let _ = fs::remove_file(&beside);
            Failure::unusable(format!(
                "{}: cannot be saved and is as it was: {error}",
                self.name
            ))
        };
        if !replaced.map_err(failure)? {
            let words = "its group cannot be kept, so no group has rights to it any more";
            let _ = writeln!(err, "{}: {words}", self.name);
        }
        // The file is the new one; that its name is on the disk is asked for too.
        let folder = self.path.parent().map(File::open);
        if let Some(Ok(folder)) = folder {
            let _ = folder.sync_all();
        }
        Ok(())
    }

    /// The new file's name until it is whole. Under the lock no other keeper has
    /// it, so one that was left behind can go.
    fn beside(&self) -> PathBuf {
        let mut name = OsString::from(".");
        name.push(self.path.file_name().unwrap_or_default());
        name.push(".keeper-new");
        self.path.with_file_name(name)
    }

    /// Writes the new file; whether all rights of the old one were kept. Owner and
    /// rights are set through the open file: under its name somebody who may write
    /// to the folder could have put a link by then.
    fn write(&self, beside: &Path, bytes: &[u8]) -> io::Result<bool> {
        let _ = fs::remove_file(beside);
        let mut options = File::options();
        options.write(true).create_new(true).mode(0o600);
        let mut file = options.open(beside)?;
        let kept = hand_over(&file, &self.file.metadata()?)?;
        file.write_all(bytes)?;
        file.sync_all()?;
        Ok(kept)
    }
}

/// Gives a new file the owner, the group and the rights of an old one, as far as
/// whoever runs this may do so; whether all rights were kept. Only an administrator
/// can give a file to another owner, but its owner can give it to a group of his.
/// Another group does not get the rights of the old one.
fn hand_over(file: &File, old: &Metadata) -> io::Result<bool> {
    let (owner, group) = (Some(old.uid()), Some(old.gid()));
    let has_group = fchown(file, owner, group).or_else(|_| fchown(file, None, group));
    let rights = old.mode() & 0o777;
    let kept = match has_group {
        Ok(()) => rights,
        Err(_) => rights & 0o707,
    };
    file.set_permissions(Permissions::from_mode(kept))?;
    Ok(kept == rights)
}

fn lock(file: &File, name: &str, err: &mut dyn Write) -> io::Result<()> {
    match file.try_lock() {
        Ok(()) => Ok(()),
        Err(TryLockError::WouldBlock) => {
            let _ = writeln!(err, "{name}: another keeper changes it; waiting");
            file.lock()
        }
        Err(TryLockError::Error(error)) => Err(error),
    }
}

/// Whether a path still leads to this file.
fn is_same(file: &File, path: &Path) -> bool {
    let (Ok(held), Ok(there)) = (file.metadata(), fs::metadata(path)) else {
        return false;
    };
    (held.dev(), held.ino()) == (there.dev(), there.ino())
}
