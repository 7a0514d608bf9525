//! What a number means and what can be done about it: docs/NUMBERS.md, so that
//! it is said once.

use crate::words::joined;

const PAGE: &str = include_str!("../../../docs/NUMBERS.md");

/// One section of the page.
pub struct Section {
    /// The number.
    pub number: u64,
    /// Its name in small letters: name taken.
    pub name: String,
    /// What it means.
    pub meaning: String,
    /// What can be done about it.
    pub advice: String,
    /// Which calls give it.
    pub calls: String,
}

/// All sections, in their order.
pub fn sections() -> impl Iterator<Item = Section> {
    PAGE.split("\n## ").skip(1).filter_map(section)
}

/// The section of a number.
pub fn section_of(number: u64) -> Option<Section> {
    sections().find(|section| section.number == number)
}

/// What the page says of a number that is not used any more, and what it was:
/// the paragraph before the sections that begins so.
pub fn retired(number: u64) -> Option<String> {
    let (opening, _) = PAGE.split_once("\n## ")?;
    let begins = format!("{number} is not used ");
    let mut paragraphs = opening.split("\n\n");
    paragraphs
        .find(|paragraph| paragraph.starts_with(&begins))
        .map(unwrapped)
}

/// All numbers in words: 0 to 21, 23 to 31, 38 to 40 and 45.
pub fn known() -> String {
    let mut runs: Vec<(u64, u64)> = Vec::new();
    for Section { number, .. } in sections() {
        match runs.last_mut() {
            Some((_, last)) if *last + 1 == number => *last = number,
            _ => runs.push((number, number)),
        }
    }
    let run = |(first, last): &(u64, u64)| match first == last {
        true => first.to_string(),
        false => format!("{first} to {last}"),
    };
    joined(&runs.iter().map(run).collect::<Vec<_>>())
}

/// A number with its name: 13, name taken.
pub fn named(number: u64) -> String {
    let name = section_of(number).map(|section| section.name);
    format!(
        "{number}, {}",
        name.unwrap_or_else(|| "a number without a name".to_owned())
    )
}

fn section(text: &str) -> Option<Section> {
    let (heading, body) = text.split_once('\n')?;
    let (number, name) = heading.split_once(' ')?;
    let (meaning, items) = body.split_once("\n- Do: ")?;
    let (advice, rest) = items.split_once("\n- Calls: ")?;
    let calls = rest.split("\n- ").next()?;
    Some(Section {
        number: number.parse().ok()?,
        name: name.replace('_', " ").to_lowercase(),
        meaning: unwrapped(meaning),
        advice: unwrapped(advice),
        calls: unwrapped(calls),
    })
}

/// Words with single spaces, wherever lines ended.
fn unwrapped(text: &str) -> String {
    let words: Vec<_> = text.split_whitespace().collect();
    words.join(" ")
}

/// Words in lines of at most so many letters, each behind an indent.
pub fn wrapped(text: &str, indent: &str, width: usize) -> String {
    let mut lines = String::new();
    let mut line = String::new();
    for word in text.split_whitespace() {
        let length = indent.chars().count() + line.chars().count() + word.chars().count();
        if !line.is_empty() && length >= width {
            lines.push_str(&format!("{indent}{line}\n"));
            line.clear();
        }
        if !line.is_empty() {
            line.push(' ');
        }
        line.push_str(word);
    }
    lines + indent + &line + "\n"
}

#[cfg(test)]
mod tests {
    use super::{named, retired, section_of, sections, wrapped};

    #[test]
    fn every_number_is_there_with_its_words() {
        let numbers = sections().map(|section| section.number);
        assert!(numbers.eq(reference::NUMBERS));
        assert!(
            sections().all(|section| !section.meaning.is_empty() && !section.advice.is_empty())
        );
        assert_eq!(named(13), "13, name taken");
        let advice = section_of(12).map(|section| section.advice);
        assert_eq!(advice.as_deref(), Some("choose another name."));
    }

    #[test]
    fn a_number_is_in_use_or_retired_or_neither() {
        let words =
            "22 is not used (it was: a chain of superclasses that does not come to class 0), ";
        assert!(retired(22).is_some_and(|told| told.starts_with(words)));
        let others = (0..100).filter(|number| *number != 22);
        assert!(others.into_iter().all(|number| retired(number).is_none()));
    }

    #[test]
    fn lines_are_wrapped_at_words() {
        assert_eq!(wrapped("one two three", "  ", 10), "  one two\n  three\n");
    }
}
