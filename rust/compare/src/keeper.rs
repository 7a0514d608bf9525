//! What is compared: the calls of include/keeper.h, on slices.

use crate::case::Call;
use reference::{Answer, Stores};

/// A keeper: it makes a call on the stores that it is lent, into an output that
/// only a write looks at, gives a number back and tells table and place in
/// `detail`.
pub trait Keeper {
    /// Makes a call.
    fn make(&self, call: &Call, stores: &mut Stores, out: &mut [u8], detail: &mut [u64]) -> u64;
}

/// The reference behind the same calls.
#[derive(Clone, Copy, Debug)]
pub struct Reference;

/// Tells an answer; "`detail` shorter than 2 counts as a short store: 1, and
/// nothing is altered", so the call is then not made at all.
pub fn tell(detail: &mut [u64], call: impl FnOnce() -> Answer) -> u64 {
    let [table, place, ..] = detail else {
        return 1;
    };
    let answer = call();
    (*table, *place) = (answer.table, answer.place);
    answer.number
}

impl Keeper for Reference {
    fn make(&self, call: &Call, stores: &mut Stores, out: &mut [u8], detail: &mut [u64]) -> u64 {
        tell(detail, || match call {
            Call::Load(sheet) => stores.load(sheet),
            Call::Write(_) => stores.write(out),
            Call::Audit => stores.audit(),
            Call::Plain(change) => stores.plain(change),
            Call::Quick(change) => stores.quick(change),
            Call::Depth(class) => stores.depth(*class),
        })
    }
}
