//! The forest's stores with a byte of counts, first rows or first kept sets
//! poked, asked by every call that reads them.

use crate::case::{Call, Case};
use crate::cases::FOREST;
use reference::Stores;

/// Store and length of each front that is poked: counts and two rows.
const FRONTS: [(usize, usize); 3] = [(0, 2 + 2 * 189), (1, 2 + 2 * 315), (2, 2 * 80)];

/// Each byte of them is poked with these.
const POKES: [u8; 8] = [0x00, 0x01, 0x02, 0x0A, 0x40, 0x41, 0x7F, 0xFF];

/// A change that the forest accepts: attribute 17 is named `woodedHa`.
const RENAMING: &[u8] = b"\x43\x00\x10\x20\x00\x02\x00\x11\x01\x00\x08woodedHa";

/// Class 1 gets the auxiliary 8. Its row and its kept sets are among the poked.
const JOINING: &[u8] = b"\x49\x00\x0E\x20\x00\x02\x00\x01\x21\x00\x01\x17\x22\x00\x02\x00\x08";

/// Class 1 gets the auxiliary 9 too.
const JOINING_MORE: &[u8] = b"\x49\x00\x0E\x20\x00\x02\x00\x01\x21\x00\x01\x17\x22\x00\x02\x00\x09";

/// Class 1 loses the auxiliary 8.
const REMOVING: &[u8] = b"\x4A\x00\x0E\x20\x00\x02\x00\x01\x21\x00\x01\x17\x22\x00\x02\x00\x08";

/// The quick changes of the forest in which class 1 has the auxiliary 8.
const QUICK: [&[u8]; 3] = [RENAMING, JOINING_MORE, REMOVING];

/// So many inputs there are.
pub const EXPECTED: usize =
    (FRONTS[0].1 + FRONTS[1].1 + FRONTS[2].1) * POKES.len() * (4 + QUICK.len());

/// Every poke, of the forest as loaded and of the forest as changed.
pub fn all() -> impl Iterator<Item = Case> {
    let asked = [
        Call::Audit,
        Call::Write(FOREST.len()),
        Call::Depth(19),
        Call::Plain(RENAMING.to_vec()),
    ];
    let quick = QUICK.map(|change| Call::Quick(change.to_vec()));
    poked(forest(), asked.to_vec()).chain(poked(joined(), quick.to_vec()))
}

/// The forest's stores.
fn forest() -> Stores {
    let mut stores = Stores::default();
    stores.load(FOREST);
    stores
}

/// The forest in which class 1 has the auxiliary 8.
fn joined() -> Stores {
    let mut stores = forest();
    stores.plain(JOINING);
    stores
}

/// Stores with each byte poked, asked by each call.
fn poked(stores: Stores, calls: Vec<Call>) -> impl Iterator<Item = Case> {
    let places = FRONTS
        .into_iter()
        .flat_map(|(store, front)| (0..front).map(move |place| (store, place)));
    let pokes = places.flat_map(|place| POKES.map(|byte| (place, byte)));
    pokes.flat_map(move |((store, place), byte)| {
        let mut poked = stores.clone();
        poked.0[store][place] = byte;
        let case = |call| Case::new(call, poked.clone());
        calls.clone().into_iter().map(case).collect::<Vec<_>>()
    })
}

#[cfg(test)]
mod tests {
    use super::*;

    #[test]
    fn each_change_is_accepted_where_nothing_is_poked() {
        assert_eq!(forest().plain(RENAMING).number, 0);
        assert_eq!(forest().plain(JOINING).number, 0);
        for change in QUICK {
            assert_eq!(joined().quick(change).number, 0, "{change:?}");
        }
    }
}
