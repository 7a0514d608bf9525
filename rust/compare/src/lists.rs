//! Changes at random in lists: each is made to what the one before has left.

use crate::case::{Call, Case};
use crate::cases::{any_detail, any_stores};
use crate::keeper::Reference;
use generate::{Random, changes, stores};
use reference::Stores;

/// So many changes stand in a list.
const LENGTH: u64 = 10;

/// The sources of numbers of lists of plain changes begin here, behind those of
/// the other inputs.
const FIRST_PLAIN: u64 = 1 << 31;

/// Those of lists of quick changes begin here.
const FIRST_QUICK: u64 = 3 << 30;

/// The plain changes of endless lists, the same for the same seed: mostly on
/// stores in order, since no change is made to others.
pub fn plain(seed: u64) -> impl Iterator<Item = Case> {
    (FIRST_PLAIN..).flat_map(move |number| {
        let mut random = Random::nth(seed, number);
        let stores = mostly_in_order(&mut random);
        list(random, stores, Call::Plain)
    })
}

/// The quick changes of endless lists, the same for the same seed: mostly on
/// stores not in order, since what is in order is met in long lists.
pub fn quick(seed: u64) -> impl Iterator<Item = Case> {
    (FIRST_QUICK..).flat_map(move |number| {
        let mut random = Random::nth(seed, number);
        let stores = mostly_out_of_order(&mut random);
        list(random, stores, Call::Quick)
    })
}

/// One list. What a change left is what the reference leaves: a keeper that
/// left anything else differs at that change.
fn list(
    mut random: Random,
    mut stores: Stores,
    call: fn(Vec<u8>) -> Call,
) -> impl Iterator<Item = Case> {
    (0..LENGTH).map(move |_| {
        let change = changes::any(&mut random, &stores.schema());
        let mut case = Case::new(call(change), stores.clone());
        case.detail = any_detail(&mut random);
        stores = case.play(&Reference).stores;
        case
    })
}

fn mostly_in_order(random: &mut Random) -> Stores {
    match random.below(24) {
        0 | 1 => any_stores(random),
        2 => stores::nearly_full(random),
        _ => stores::in_order(random),
    }
}

fn mostly_out_of_order(random: &mut Random) -> Stores {
    match random.below(24) {
        0 | 1 => any_stores(random),
        2 => stores::nearly_full(random),
        3 => stores::in_order(random),
        _ => stores::out_of_order(random),
    }
}
