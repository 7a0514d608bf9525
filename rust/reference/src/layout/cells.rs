//! The cells that stand side by side in a row.

use super::BrokenShape;
use crate::big_endian::number;
use crate::schema::Numbers;

/// Takes cells off the front of a row; the row's width is fixed, so there is
/// always enough to take.
pub struct Cells<'a> {
    rest: &'a [u8],
}

impl<'a> Cells<'a> {
    /// All cells of a row.
    pub fn new(row: &'a [u8]) -> Self {
        Cells { rest: row }
    }

    /// The cells not yet taken.
    pub fn rest(&self) -> &'a [u8] {
        self.rest
    }

    /// The next bytes.
    pub fn take(&mut self, width: usize) -> &'a [u8] {
        let (cell, rest) = self.rest.split_at(width);
        self.rest = rest;
        cell
    }

    /// A number, most significant byte first.
    pub fn number(&mut self, width: usize) -> u128 {
        number(self.take(width))
    }

    /// One byte.
    pub fn byte(&mut self) -> u8 {
        self.number(1) as u8
    }

    /// "flags 0 or 1" (R32)
    pub fn flag(&mut self) -> Result<bool, BrokenShape> {
        match self.byte() {
            0 => Ok(false),
            1 => Ok(true),
            _ => Err(BrokenShape),
        }
    }

    /// A count, then as many entries of some width, zero padded to the limit.
    pub fn counted(&mut self, limit: usize, width: usize) -> Result<&'a [u8], BrokenShape> {
        let count = usize::from(self.byte());
        let cell = self.take(limit * width);
        if count > limit {
            return Err(BrokenShape);
        }
        let (entries, padding) = cell.split_at(count * width);
        if padding.iter().any(|byte| *byte != 0) {
            return Err(BrokenShape);
        }
        Ok(entries)
    }

    /// A flag and a value, which is zero where the flag says absent (R32).
    pub fn optional(&mut self, width: usize) -> Result<Option<u128>, BrokenShape> {
        let present = self.flag()?;
        let value = self.number(width);
        match (present, value) {
            (true, value) => Ok(Some(value)),
            (false, 0) => Ok(None),
            (false, _) => Err(BrokenShape),
        }
    }

    /// "A set is a bit string".
    pub fn set(&mut self, width: usize) -> Numbers {
        let bytes = (0..).zip(self.take(width)).filter(|(_, byte)| **byte != 0);
        bytes
            .flat_map(|(place, byte)| members(place, *byte))
            .collect()
    }
}

/// "n is a member when bit n % 8 (least significant first) of byte n / 8 is
/// set"
fn members(place: u16, byte: u8) -> impl Iterator<Item = u16> {
    (0..8)
        .filter(move |bit| byte >> bit & 1 == 1)
        .map(move |bit| place * 8 + bit)
}

/// The cell of a count and its entries.
pub fn counted(count: usize, entries: &[u8], width: usize) -> Vec<u8> {
    let mut cell = vec![count as u8];
    cell.extend(entries);
    cell.resize(1 + width, 0);
    cell
}

/// The cell of a flag and its value.
pub fn optional<const N: usize>(value: Option<[u8; N]>) -> Vec<u8> {
    let mut cell = vec![u8::from(value.is_some())];
    cell.extend(value.unwrap_or([0; N]));
    cell
}

/// The cell of a set.
pub fn set(numbers: &Numbers, width: usize) -> Vec<u8> {
    let mut cell = vec![0; width];
    for n in numbers {
        cell[usize::from(n / 8)] |= 1 << (n % 8);
    }
    cell
}
