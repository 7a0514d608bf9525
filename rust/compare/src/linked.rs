//! The keeper in the static library, by both ways that lead to it.

use crate::case::Call;
use crate::keeper::{Keeper, tell};
use keeper::c;
use reference::{Answer, Stores};

/// Through the declarations of include/keeper.h.
#[derive(Clone, Copy, Debug)]
pub struct Declared;

impl Keeper for Declared {
    fn make(&self, call: &Call, stores: &mut Stores, out: &mut [u8], detail: &mut [u64]) -> u64 {
        match call {
            Call::Load(sheet) => c::load(sheet, stores.lent_mut(), detail),
            Call::Write(_) => c::write(stores.lent(), out, detail),
            Call::Audit => c::audit(stores.lent(), detail),
            Call::Plain(change) => c::plain_change(change, stores.lent_mut(), detail),
            Call::Quick(change) => c::quick_change(change, stores.lent_mut(), detail),
            Call::Depth(class) => c::depth(stores.lent(), *class, detail),
        }
    }
}

/// Through the functions that give an answer back. They have no `detail` that
/// could be short: such inputs do not come to them.
#[derive(Clone, Copy, Debug)]
pub struct Wrapped;

/// The same answer as the reference's kind.
fn same(answer: keeper::Answer) -> Answer {
    let keeper::Answer {
        number,
        table,
        place,
    } = answer;
    Answer {
        number,
        table,
        place,
    }
}

impl Keeper for Wrapped {
    fn make(&self, call: &Call, stores: &mut Stores, out: &mut [u8], detail: &mut [u64]) -> u64 {
        let mut stores = keeper::Stores(stores.lent_mut());
        let mut answer = || match call {
            Call::Load(sheet) => stores.load(sheet),
            Call::Write(_) => stores.write(out),
            Call::Audit => stores.audit(),
            Call::Plain(change) => stores.plain_change(change),
            Call::Quick(change) => stores.quick_change(change),
            Call::Depth(class) => stores.depth(*class),
        };
        tell(detail, || same(answer()))
    }
}
