//! The lent stores: byte strings of any lengths and any bytes, by number.

use crate::answer::Answer;
use crate::layout::{self, ATTRIBUTE_STORE, CLASS_STORE, CLOSURE_STORE, Tables};
use crate::schema::Schema;

/// The attribute store's number.
pub const ATTRIBUTES: usize = 0;
/// The class store's number.
pub const CLASSES: usize = 1;
/// The closure store's number.
pub const CLOSURE: usize = 2;

/// The length of each store, by number; in this order they are lent.
pub const LENGTHS: [usize; 3] = [ATTRIBUTE_STORE, CLASS_STORE, CLOSURE_STORE];

/// Bytes past the stores, and bytes of an output not yet written, are these.
pub const PAST: u8 = 0xA5;

/// The stores that a caller lends, by number.
#[derive(Clone, Debug, PartialEq, Eq)]
pub struct Stores(pub [Vec<u8>; LENGTHS.len()]);

impl Default for Stores {
    /// "The stores start with their lengths and 16 bytes A5 past each, all
    /// else zero."
    fn default() -> Stores {
        Stores::filled(0)
    }
}

impl Stores {
    /// Stores all of one byte, and 16 bytes A5 past each.
    pub fn filled(byte: u8) -> Stores {
        Stores(LENGTHS.map(|length| [vec![byte; length], vec![PAST; 16]].concat()))
    }

    /// Stores that hold these tables.
    pub fn holding(tables: &Tables) -> Stores {
        let mut stores = Stores::default();
        layout::encode(tables, &mut stores);
        stores
    }

    /// The stores, to be read.
    pub fn lent(&self) -> [&[u8]; LENGTHS.len()] {
        self.0.each_ref().map(Vec::as_slice)
    }

    /// The stores, to be written to.
    pub fn lent_mut(&mut self) -> [&mut [u8]; LENGTHS.len()] {
        self.0.each_mut().map(Vec::as_mut_slice)
    }

    /// "1: a lent store is shorter than its length"
    pub fn is_short(&self) -> bool {
        let mut stores = self.0.iter().zip(LENGTHS);
        stores.any(|(store, length)| store.len() < length)
    }

    /// A store that is long enough, up to its length.
    pub fn front(&self, store: usize) -> &[u8] {
        &self.0[store][..LENGTHS[store]]
    }

    /// Stores that are long enough, each up to its length: "bytes past them are
    /// never touched".
    pub fn fronts_mut(&mut self) -> impl Iterator<Item = &mut [u8]> {
        let stores = self.0.iter_mut().zip(LENGTHS);
        stores.map(|(store, length)| &mut store[..length])
    }

    /// The tables in the stores: "1 a lent store is shorter than its length", "2
    /// shape broken".
    pub fn tables(&self) -> Result<Tables, Answer> {
        if self.is_short() {
            return Err(Answer::bare(1));
        }
        layout::decode(self).map_err(|_broken| Answer::bare(2))
    }

    /// The rows in the stores, none where they are short or broken.
    pub fn schema(&self) -> Schema {
        let schema = self.tables().map(|tables| tables.schema);
        schema.unwrap_or_default()
    }
}
