//! A schema from a file or from standard input: as a sheet, as text or as LDIF,
//! told apart by content.

use crate::failure::Failure;
use crate::words::printable;
use std::ffi::OsStr;
use std::fs::File;
use std::io::Read;

/// No input may be longer: the largest published schemas have a few million
/// bytes.
pub const LONGEST: usize = 16 << 20;

/// In which form a schema is written down.
#[derive(Clone, Copy, Debug, PartialEq, Eq)]
pub enum Form {
    /// The bytes that the keeper loads.
    Sheet,
    /// The text form.
    Text,
    /// Entries as directories publish them.
    Ldif,
}

/// What was read.
pub struct Given {
    /// The file's name, for messages.
    pub name: String,
    /// Its bytes.
    pub bytes: Vec<u8>,
    /// Its form.
    pub form: Form,
}

impl Given {
    /// Reads a file, or standard input for `-`.
    pub fn read(path: &OsStr, input: &mut dyn Read) -> Result<Given, Failure> {
        let (name, bytes) = named_bytes(path, input)?;
        Given::of(name, bytes)
    }

    /// What these bytes are.
    pub fn of(name: String, bytes: Vec<u8>) -> Result<Given, Failure> {
        if bytes.is_empty() {
            return Err(Failure::unusable(format!(
                "{name}: is empty, so it holds no schema"
            )));
        }
        if bytes.len() > LONGEST {
            let words = format!("{name}: is longer than {LONGEST} bytes, so it is no schema");
            return Err(Failure::unusable(words));
        }
        let (name, form) = (printable(&name), form(&bytes));
        Ok(Given { name, bytes, form })
    }

    /// The bytes as text, whatever they are. A mark of the byte order is dropped,
    /// and UTF-16 with such a mark is read too, as `ldifde -u` writes it; so are
    /// the ^Z with which DOS ends a text.
    pub fn text(&self) -> String {
        text(&self.bytes)
    }

    /// A text in place of this one, in bytes: with the mark before it and the ^Z
    /// behind it that this one has.
    pub fn in_place(&self, text: &str) -> Vec<u8> {
        let mark = match self.bytes.starts_with(&MARK) {
            true => MARK.as_slice(),
            false => &[],
        };
        let end = &self.bytes[without_end(&self.bytes).len()..];
        [mark, text.as_bytes(), end].concat()
    }
}

/// The mark that some systems write before a text of UTF-8.
const MARK: [u8; 3] = [0xEF, 0xBB, 0xBF];

/// Bytes without the ^Z at their end.
fn without_end(bytes: &[u8]) -> &[u8] {
    let end = bytes.iter().rposition(|byte| *byte != 0x1A);
    &bytes[..end.map_or(0, |end| end + 1)]
}

/// A text that is no schema and may be empty, from a file or from standard input,
/// with its name.
pub fn read_text(path: &OsStr, input: &mut dyn Read) -> Result<(String, String), Failure> {
    let (name, bytes) = named_bytes(path, input)?;
    match bytes.len() > LONGEST {
        true => Err(Failure::unusable(format!(
            "{name}: is longer than {LONGEST} bytes, the most that is read"
        ))),
        false => Ok((printable(&name), text(&bytes))),
    }
}

/// The name and the bytes of a file, or of standard input for `-`; of one that is
/// too long a byte more than the most.
fn named_bytes(path: &OsStr, input: &mut dyn Read) -> Result<(String, Vec<u8>), Failure> {
    let name = match path == "-" {
        true => "standard input".to_owned(),
        false => path.to_string_lossy().into_owned(),
    };
    let cannot = |error| Failure::unusable(format!("{name}: cannot be read: {error}"));
    let mut bytes = Vec::new();
    let limit = u64::try_from(LONGEST).unwrap_or(u64::MAX) + 1;
    let read = match path == "-" {
        true => input.take(limit).read_to_end(&mut bytes),
        false => File::open(path).and_then(|file| file.take(limit).read_to_end(&mut bytes)),
    };
    read.map_err(cannot)?;
    Ok((name, bytes))
}

fn text(bytes: &[u8]) -> String {
    let pairs = |bytes: &[u8], order: fn([u8; 2]) -> u16| -> String {
        let pairs: Vec<u16> = bytes
            .chunks_exact(2)
            .map(|pair| order([pair[0], pair[1]]))
            .collect();
        String::from_utf16_lossy(&pairs)
    };
    match bytes {
        [0xFF, 0xFE, rest @ ..] => pairs(rest, u16::from_le_bytes),
        [0xFE, 0xFF, rest @ ..] => pairs(rest, u16::from_be_bytes),
        _ => {
            let rest = bytes.strip_prefix(&MARK).unwrap_or(bytes);
            String::from_utf8_lossy(without_end(rest)).into_owned()
        }
    }
}

/// A sheet begins with the tag of its heading, and has zero bytes where it is
/// damaged there: no text has either. The first line of LDIF that says something
/// has a name and a colon.
fn form(bytes: &[u8]) -> Form {
    let marked = matches!(bytes, [0xFF, 0xFE, ..] | [0xFE, 0xFF, ..]);
    if !marked && (bytes.starts_with(&[0x01]) || bytes.contains(&0)) {
        return Form::Sheet;
    }
    let text = text(bytes);
    let word = first_said(&text)
        .and_then(|line| line.split_once(':'))
        .map(|(word, _)| word);
    let is_name = |word: &str| {
        let of_name = |letter: char| letter.is_ascii_alphanumeric() || ";.-".contains(letter);
        !word.is_empty() && word.chars().all(of_name)
    };
    match word.is_some_and(is_name) {
        true => Form::Ldif,
        false => Form::Text,
    }
}

/// The first line that is neither empty nor a comment, nor folded behind one.
fn first_said(text: &str) -> Option<&str> {
    let mut in_comment = false;
    text.lines().map(str::trim_end).find(|line| {
        in_comment = line.starts_with('#') || (in_comment && line.starts_with(' '));
        !in_comment && !line.is_empty()
    })
}
