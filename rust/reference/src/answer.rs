//! What every call gives back.

use crate::schema::Row;

/// Every number that some call gives, rising. 22 "is not used again" (document
/// 02, wish 7); which of them are rules, and the order of judging, is in `rules`.
pub const NUMBERS: [u64; 35] = [
    0, 1, 2, 3, 4, 5, 6, 7, 8, 9, 10, 11, 12, 13, 14, 15, 16, 17, 18, 19, 20, 21, 23, 24, 25, 26,
    27, 28, 29, 30, 31, 38, 39, 40, 45,
];

/// "Every answer has a number, a table (0 none, 1 attribute, 2 class) and a
/// place; what is not named below is 0."
#[derive(Clone, Copy, Debug, PartialEq, Eq)]
pub struct Answer {
    /// The first number, in the order of judging, whose condition holds.
    pub number: u64,
    /// 0 none, 1 attribute, 2 class.
    pub table: u64,
    /// A row, an offset, a limit, a length or a number of steps.
    pub place: u64,
}

impl Answer {
    /// Number, table and place.
    pub const fn told(self) -> (u64, u64, u64) {
        (self.number, self.table, self.place)
    }

    /// An answer whose table and place are not named.
    pub const fn bare(number: u64) -> Answer {
        Answer {
            number,
            table: 0,
            place: 0,
        }
    }

    /// An answer with a place and no table.
    pub const fn at(number: u64, place: usize) -> Answer {
        Answer {
            number,
            table: 0,
            place: place as u64,
        }
    }

    /// An answer that names a row.
    pub const fn on(number: u64, row: Row) -> Answer {
        Answer {
            number,
            table: row.table(),
            place: row.number() as u64,
        }
    }
}
