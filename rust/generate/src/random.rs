//! Numbers that look random and are the same for the same seed (splitmix64).

use std::ops::Range;

/// A source of numbers.
#[derive(Clone, Debug)]
pub struct Random {
    state: u64,
}

impl Random {
    /// The source that this seed begins.
    pub fn new(seed: u64) -> Random {
        Random { state: seed }
    }

    /// The source for one of the many inputs that a seed begins.
    pub fn nth(seed: u64, number: u64) -> Random {
        Random::new(seed.wrapping_mul(1 << 32).wrapping_add(number))
    }

    /// The source for a test: its own seed, and another one for each value of
    /// the environment's SEED.
    pub fn for_test(seed: u64) -> Random {
        let given = std::env::var("SEED").ok();
        let shift: u64 = given.and_then(|text| text.parse().ok()).unwrap_or(0);
        Random::new(seed.wrapping_add(shift.wrapping_mul(1000)))
    }

    /// Any number.
    pub fn number(&mut self) -> u64 {
        self.state = self.state.wrapping_add(0x9E37_79B9_7F4A_7C15);
        let mut mixed = self.state;
        mixed = (mixed ^ (mixed >> 30)).wrapping_mul(0xBF58_476D_1CE4_E5B9);
        mixed = (mixed ^ (mixed >> 27)).wrapping_mul(0x94D0_49BB_1331_11EB);
        mixed ^ (mixed >> 31)
    }

    /// A number below the limit; 0 where the limit is 0.
    pub fn below(&mut self, limit: usize) -> usize {
        match limit {
            0 => 0,
            _ => (self.number() % limit as u64) as usize,
        }
    }

    /// A number in the range, or its start where the range is empty.
    pub fn within(&mut self, range: Range<usize>) -> usize {
        range.start + self.below(range.len())
    }

    /// True once in so many times.
    pub fn once_in(&mut self, times: usize) -> bool {
        self.below(times) == 0
    }

    /// Any byte.
    pub fn byte(&mut self) -> u8 {
        self.number() as u8
    }

    /// So many bytes.
    pub fn bytes(&mut self, length: usize) -> Vec<u8> {
        (0..length).map(|_| self.byte()).collect()
    }

    /// Any u32, often a small one.
    pub fn u32(&mut self) -> u32 {
        match self.below(3) {
            0 => self.number() as u32,
            1 => self.below(1000) as u32,
            _ => self.below(8) as u32,
        }
    }

    /// One of the values, unless there are none.
    pub fn pick<'a, T>(&mut self, values: &'a [T]) -> Option<&'a T> {
        let place = self.below(values.len());
        values.get(place)
    }
}
