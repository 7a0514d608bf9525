//! The tool run inside the test, from the top of the repository.
#![allow(dead_code, clippy::unwrap_used, clippy::expect_used, clippy::panic)]

use std::ffi::OsString;
use std::fs;
use std::path::{Path, PathBuf};
use std::sync::Once;

/// What a run gave: exit code, standard output, standard error.
pub struct Ran {
    pub code: u8,
    pub out: Vec<u8>,
    pub err: String,
}

impl Ran {
    pub fn text(&self) -> String {
        String::from_utf8_lossy(&self.out).into_owned()
    }
}

/// All tests stand at the top of the repository, so that outputs hold no path of
/// this machine.
pub fn top() {
    static ONCE: Once = Once::new();
    ONCE.call_once(|| {
        let top = Path::new(env!("CARGO_MANIFEST_DIR")).join("../..");
        std::env::set_current_dir(top).expect("the top of the repository");
    });
}

/// Runs the tool with these words and this input.
pub fn fed(words: &[&str], input: &[u8]) -> Ran {
    top();
    let words: Vec<OsString> = words.iter().map(OsString::from).collect();
    let (mut out, mut err, mut input) = (Vec::new(), Vec::new(), input);
    let mut io = tool::Io {
        input: &mut input,
        out: &mut out,
        err: &mut err,
        is_terminal: false,
    };
    let code = tool::run(&words, &mut io);
    let err = String::from_utf8_lossy(&err).into_owned();
    Ran { code, out, err }
}

/// Runs the tool with these words.
pub fn ran(words: &[&str]) -> Ran {
    fed(words, b"")
}

/// What the tool prints where all is done.
pub fn done(words: &[&str]) -> String {
    let ran = ran(words);
    assert_eq!((ran.code, ran.err.as_str()), (0, ""), "{words:?}");
    ran.text()
}

/// What the tool says where it refuses with this exit code.
pub fn refused(code: u8, words: &[&str]) -> String {
    let ran = ran(words);
    assert_eq!(
        (ran.code, ran.text().as_str()),
        (code, ""),
        "{words:?}: {}",
        ran.err
    );
    ran.err
}

/// A new folder for a test, under the system's folder for such things.
pub fn folder(name: &str) -> PathBuf {
    top();
    let folder = std::env::temp_dir().join(format!("keeper-{name}-{}", std::process::id()));
    let _ = fs::remove_dir_all(&folder);
    fs::create_dir_all(&folder).expect("a folder");
    folder
}

/// A copy of a sample in a folder, by its path.
pub fn copied(folder: &Path, sample: &str) -> String {
    let path = folder.join(sample);
    fs::copy(Path::new("samples").join(sample), &path).expect("a copy");
    path.to_string_lossy().into_owned()
}

/// Bytes written to a file in a folder, by its path.
pub fn kept(folder: &Path, name: &str, bytes: &[u8]) -> String {
    let path = folder.join(name);
    fs::write(&path, bytes).expect("a file");
    path.to_string_lossy().into_owned()
}
