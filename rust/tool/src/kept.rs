//! The sets that the keeper keeps of each class.

use keeper::{CLOSURE, Stores};

/// One of the three sets that are kept of each class.
#[derive(Clone, Copy)]
pub enum Kept {
    /// The classes that it reaches, itself among them.
    Reached,
    /// The attributes that it demands.
    Demanded,
    /// The attributes that it allows.
    Allowed,
}

impl Kept {
    /// This set of a class (docs/LAYOUT.md has its place).
    pub fn of(self, stores: &Stores, class: usize) -> Vec<u16> {
        let (from, to) = match self {
            Kept::Reached => (0, 16),
            Kept::Demanded => (16, 48),
            Kept::Allowed => (48, 80),
        };
        let set = stores.0[CLOSURE].get(80 * class + from..80 * class + to);
        let set = set.unwrap_or_default();
        let has = |number: &u16| {
            let byte = set[usize::from(number / 8)];
            byte >> (number % 8) & 1 == 1
        };
        let limit = u16::try_from(8 * set.len()).unwrap_or(0);
        (0..limit).filter(has).collect()
    }
}
