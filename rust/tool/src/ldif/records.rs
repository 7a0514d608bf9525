//! The records of LDIF: folded lines joined, comments dropped, values decoded.

use super::base64;

/// One value of an entry.
#[derive(Clone, Debug, PartialEq, Eq)]
pub struct Value {
    /// The name of the attribute in small letters, without options.
    pub name: String,
    /// Its bytes.
    pub bytes: Vec<u8>,
    /// Whether it stood in base64.
    pub is_encoded: bool,
    /// Its line, counted from 1.
    pub line: usize,
}

impl Value {
    /// The value as text.
    pub fn text(&self) -> String {
        String::from_utf8_lossy(&self.bytes).into_owned()
    }
}

/// The values between two empty lines.
#[derive(Clone, Debug, Default, PartialEq, Eq)]
pub struct Record {
    /// Its values, in their order.
    pub values: Vec<Value>,
}

impl Record {
    /// The line at which it begins.
    pub fn line(&self) -> usize {
        self.values.first().map_or(0, |value| value.line)
    }

    /// All values of an attribute, by its name in small letters.
    pub fn all<'a>(&'a self, name: &'a str) -> impl Iterator<Item = &'a Value> {
        self.values.iter().filter(move |value| value.name == name)
    }

    /// The first value of an attribute.
    pub fn first(&self, name: &str) -> Option<&Value> {
        self.values.iter().find(|value| value.name == name)
    }
}

/// The records of a text; a line that is none of LDIF is told with its number.
pub fn records(text: &str) -> Result<Vec<Record>, String> {
    let mut records = vec![Record::default()];
    for (line, text) in unfolded(text) {
        let value = match text.as_str() {
            "" => None,
            "-" => continue,
            text => Some(value(line, text)?),
        };
        // A new name begins a new record, also where files were put together
        // without an empty line between them.
        if value.as_ref().is_none_or(|value| value.name == "dn") {
            records.push(Record::default());
        }
        if let Some(record) = records.last_mut() {
            record.values.extend(value);
        }
    }
    let is_version =
        |record: &Record| matches!(record.values.as_slice(), [only] if only.name == "version");
    for record in &mut records {
        if record
            .values
            .first()
            .is_some_and(|value| value.name == "version")
        {
            record.values.remove(0);
        }
    }
    records.retain(|record| !record.values.is_empty() && !is_version(record));
    Ok(records)
}

/// Lines with what was folded behind them, comments left out.
fn unfolded(text: &str) -> Vec<(usize, String)> {
    let mut lines: Vec<(usize, String)> = Vec::new();
    for (line, text) in (1..).zip(text.lines()) {
        match (text.strip_prefix(' '), lines.last_mut()) {
            (Some(rest), Some((_, whole))) if !whole.is_empty() => whole.push_str(rest),
            _ => lines.push((line, text.trim_end().to_owned())),
        }
    }
    lines.retain(|(_, text)| !text.starts_with('#'));
    lines
}

fn value(line: usize, text: &str) -> Result<Value, String> {
    let fault = |words: &str| format!("line {line}: {words}");
    let (name, rest) = text
        .split_once(':')
        .ok_or_else(|| fault("no colon, so it is no line of LDIF"))?;
    let name = name
        .split(';')
        .next()
        .unwrap_or_default()
        .trim()
        .to_ascii_lowercase();
    let (bytes, is_encoded) = match rest.as_bytes().first() {
        Some(b':') => {
            let bytes = base64::decoded(rest[1..].trim());
            (bytes.ok_or_else(|| fault("not base64 behind `::`"))?, true)
        }
        Some(b'<') => {
            return Err(fault(
                "a value that stands elsewhere (`:<`) is not taken in",
            ));
        }
        _ => (rest.trim().as_bytes().to_vec(), false),
    };
    Ok(Value {
        name,
        bytes,
        is_encoded,
        line,
    })
}
