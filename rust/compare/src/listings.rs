//! A program that lists sheets, compared with the reference's listing.

use crate::cases::any_sheet;
use generate::{Random, damaged, sheets};
use reference::{LISTED_LIMIT, listing};

/// After so many differences nothing more is learnt.
const ENOUGH: usize = 10;

/// What a comparison of listings came to.
#[derive(Clone, Debug, Default)]
pub struct Listings {
    /// How many sheets have a listing.
    pub listed: usize,
    /// How many of them have just as many bytes as may be listed.
    pub just_listed: usize,
    /// How many are refused.
    pub refused: usize,
    /// How many are too long.
    pub too_long: usize,
    /// The differences found, each with the sheet's number and length.
    pub differences: Vec<String>,
}

impl Listings {
    /// How many sheets were compared.
    pub fn sheets(&self) -> usize {
        self.listed + self.refused + self.too_long
    }

    fn note(&mut self, sheet: &[u8], expected: &[u8]) {
        match expected {
            b"too long\n" => self.too_long += 1,
            [b'r', ..] => self.refused += 1,
            _ => {
                self.listed += 1;
                self.just_listed += usize::from(sheet.len() == LISTED_LIMIT);
            }
        }
    }
}

/// Lists so many sheets at random, the same for the same seed, with a program.
/// An error of the program ends the comparison.
pub fn compare_listings<E>(
    program: impl Fn(&[u8]) -> Result<Vec<u8>, E>,
    seed: u64,
    count: u64,
) -> Result<Listings, E> {
    let mut report = Listings::default();
    for number in 0..count {
        let sheet = any(&mut Random::nth(seed, number));
        let expected = listing(&sheet);
        report.note(&sheet, &expected);
        if let Some(difference) = difference(&program(&sheet)?, &expected) {
            let line = format!("sheet {number}, {} bytes: {difference}", sheet.len());
            report.differences.push(line);
        }
        if report.differences.len() == ENOUGH {
            break;
        }
    }
    Ok(report)
}

/// Where two texts differ, in words.
fn difference(got: &[u8], expected: &[u8]) -> Option<String> {
    if got == expected {
        return None;
    }
    let same = got
        .iter()
        .zip(expected)
        .take_while(|(got, wanted)| got == wanted);
    let (at, got, expected) = (same.count(), got.len(), expected.len());
    Some(format!(
        "text of {got} bytes, not {expected}, other from byte {at} on"
    ))
}

/// Sheets of every kind, and more of those around the greatest length that is
/// listed and of those with long lines.
fn any(random: &mut Random) -> Vec<u8> {
    match random.below(16) {
        0 => sheets::sound_of_length(random, LISTED_LIMIT),
        1 => sheets::sound_of_length(random, LISTED_LIMIT + 1),
        2 => {
            let sheet = sheets::sound_of_length(random, LISTED_LIMIT);
            damaged(random, &sheet)
        }
        3 => {
            let length = LISTED_LIMIT - 1 + random.below(3);
            padded(random, length)
        }
        4 => {
            let length = LISTED_LIMIT + random.below(200_000);
            padded(random, length)
        }
        5 => sheets::longest_names(random),
        _ => any_sheet(random),
    }
}

/// A sheet with bytes behind it up to a length.
fn padded(random: &mut Random, length: usize) -> Vec<u8> {
    let mut sheet = any_sheet(random);
    let missing = length.saturating_sub(sheet.len());
    sheet.extend(random.bytes(missing));
    sheet
}
