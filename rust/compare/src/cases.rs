//! The inputs: as many at random as asked for, and then some families in full.

use crate::case::{Call, Case};
use crate::lists;
use crate::page;
use crate::pokes;
use generate::sheets::PAPER;
use generate::{Random, changes, sheets, stores};
use reference::{LENGTHS, PAST, Stores};

/// The sample of the repository.
pub const FOREST: &[u8] = include_bytes!("../../../samples/forest.sheet");

/// So many inputs there are: the families in full, and those at random, of which
/// there are four for each that is asked for.
pub const fn expected(count: usize) -> usize {
    let families = 256 * PAPER.len() + (FOREST.len() + 1) + pokes::EXPECTED + page::EXPECTED;
    families + 4 * count
}

/// All inputs, the same for the same seed: so many of every call, as many plain
/// changes in lists, and twice as many quick changes in lists.
pub fn cases(seed: u64, count: usize) -> impl Iterator<Item = Case> {
    let random = (0..count as u64).map(move |number| any(&mut Random::nth(seed, number)));
    random
        .chain(lists::plain(seed).take(count))
        .chain(lists::quick(seed).take(2 * count))
        .chain(every_byte())
        .chain(every_prefix())
        .chain(pokes::all())
        .chain(page::every_byte())
        .chain(page::every_prefix())
}

/// The whole sheet with each byte replaced by each value.
fn every_byte() -> impl Iterator<Item = Case> {
    let places = 0..PAPER.len();
    places.flat_map(|place| {
        (0..=255).map(move |byte| {
            let mut sheet = PAPER.to_vec();
            sheet[place] = byte;
            Case::new(Call::Load(sheet), Stores::default())
        })
    })
}

/// The forest cut at each place.
fn every_prefix() -> impl Iterator<Item = Case> {
    (0..=FOREST.len()).map(|length| {
        let sheet = FOREST[..length].to_vec();
        Case::new(Call::Load(sheet), Stores::default())
    })
}

/// An input of any kind.
fn any(random: &mut Random) -> Case {
    let stores = any_stores(random);
    let call = match random.below(14) {
        0..=3 => Call::Load(any_sheet(random)),
        4..=5 => Call::Write(any_length(random, &stores)),
        6..=7 => Call::Audit,
        8..=9 => Call::Plain(changes::any(random, &stores.schema())),
        10..=11 => Call::Quick(changes::any(random, &stores.schema())),
        _ => Call::Depth(any_class(random, &stores)),
    };
    let mut case = Case::new(call, stores);
    case.detail = any_detail(random);
    case
}

/// Mostly room for what a call tells, sometimes less or more.
pub fn any_detail(random: &mut Random) -> usize {
    match random.once_in(12) {
        true => random.pick(&[0, 1, 3, 7]).copied().unwrap_or(2),
        false => 2,
    }
}

/// Sheets of every kind, and sometimes bytes alone.
pub fn any_sheet(random: &mut Random) -> Vec<u8> {
    match random.below(20) {
        0 => {
            let length = random.below(3000);
            random.bytes(length)
        }
        1 => {
            let sheet = sheets::sound(random);
            [sheet, random.bytes(1)].concat()
        }
        _ => sheets::any(random),
    }
}

/// Stores of every kind: those that a caller might have, noise, and any
/// lengths.
pub fn any_stores(random: &mut Random) -> Stores {
    let mut stores = match random.below(16) {
        0 => noise(random),
        1 => Stores::default(),
        _ => stores::any(random),
    };
    if random.once_in(30) {
        for (bytes, exact) in stores.0.iter_mut().zip(LENGTHS) {
            let length = match random.below(4) {
                0 => random.below(exact + 64),
                _ => exact + random.below(64),
            };
            bytes.resize(length, PAST);
        }
    }
    stores
}

fn noise(random: &mut Random) -> Stores {
    Stores(LENGTHS.map(|length| random.bytes(length + 16)))
}

/// Lengths around the one needed, and others.
fn any_length(random: &mut Random, stores: &Stores) -> usize {
    let needed = stores.write(&mut []).place as usize;
    match random.below(8) {
        0 => needed.saturating_sub(1),
        1 => random.below(needed + 1),
        2 => 0,
        3 => needed + 1,
        4 => needed + random.below(5000),
        _ => needed,
    }
}

fn any_class(random: &mut Random, stores: &Stores) -> u16 {
    match random.below(10) {
        0 => random.number() as u16,
        1 => random.within(120..140) as u16,
        _ => random.below(stores.schema().classes.len() + 1) as u16,
    }
}
