//! The list of edits.

/// A one-line edit of the reference, and what it goes against.
#[derive(Clone, Debug, PartialEq, Eq)]
pub struct Edit {
    /// A sentence of document 01 or 02, or the part of it that the edit goes
    /// against.
    pub sentence: String,
    /// The file, from rust/reference/src.
    pub file: String,
    /// The old text.
    pub old: String,
    /// The new text.
    pub new: String,
    /// A text that the old one comes after, where it is not the only one.
    pub after: Option<String>,
}

/// The edits of a list: entries of four or five lines, each with a sign of its
/// own, `#` before a remark, and an empty line between entries.
pub fn edits(list: &str) -> Result<Vec<Edit>, String> {
    let remarkless: Vec<&str> = list.lines().filter(|line| !line.starts_with('#')).collect();
    let entries = remarkless.split(|line| line.is_empty());
    entries
        .filter(|entry| !entry.is_empty())
        .map(|entry| read(entry).ok_or_else(|| format!("no edit: {}", entry.join(" / "))))
        .collect()
}

fn read(entry: &[&str]) -> Option<Edit> {
    let after = match entry.get(4) {
        Some(line) => Some(line.strip_prefix("^ ")?.to_string()),
        None => None,
    };
    let [sentence, file, old, new] = entry.first_chunk()?;
    (entry.len() <= 5).then_some(Edit {
        sentence: sentence.strip_prefix("? ")?.to_string(),
        file: file.strip_prefix("@ ")?.to_string(),
        old: old.strip_prefix("- ")?.to_string(),
        new: new.strip_prefix("+ ")?.to_string(),
        after,
    })
}

impl Edit {
    /// A file's text with the edit made; none where the old text does not stand
    /// there exactly once, or not after the text that it should come after.
    pub fn made(&self, text: &str) -> Option<String> {
        let start = match &self.after {
            Some(after) => text.find(after)? + after.len(),
            None => 0,
        };
        let place = start + text[start..].find(&self.old)?;
        let end = place + self.old.len();
        let only = self.after.is_some() || !text[end..].contains(&self.old);
        (only && self.new != self.old).then(|| [&text[..place], &self.new, &text[end..]].concat())
    }
}
