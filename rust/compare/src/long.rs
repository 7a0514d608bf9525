//! Long lists of changes: the quick change works on the stores, the plain change
//! on a copy, and the keeper that is right makes plain changes to another copy.
//! Each call gets what the last one left there.

use crate::case::{Call, Case};
use crate::cases::FOREST;
use crate::keeper::Keeper;
use crate::outcome::{Difference, Outcome};
use generate::schemas::{self, Size};
use generate::{Random, changes, sheets};
use reference::{Stores, writing};

/// So many changes stand in a list.
pub const LENGTH: usize = 300;

/// The lists' sources of numbers begin here, behind those of all other inputs.
const FIRST: u64 = 7 << 29;

/// What a comparison of long lists came to.
#[derive(Clone, Debug, Default)]
pub struct LongLists {
    /// How many lists were played.
    pub lists: usize,
    /// How many changes were made or refused.
    pub changes: usize,
    /// How many of them were made.
    pub done: usize,
    /// The first difference of each list that has one.
    pub differences: Vec<String>,
}

/// Plays so many lists, the same for the same seed.
pub fn compare_long(
    keeper: &impl Keeper,
    expected: &impl Keeper,
    seed: u64,
    count: usize,
) -> LongLists {
    let mut report = LongLists::default();
    for number in 0..count {
        let mut random = Random::nth(seed, FIRST + number as u64);
        let sheet = any_sheet(&mut random, number);
        report.lists += 1;
        if let Err(difference) = play(&mut report, random, sheet, keeper, expected) {
            let line = format!("list {number}, change {}: {difference}", report.changes);
            report.differences.push(line);
        }
    }
    report
}

/// The forest, full schemas, and any others.
fn any_sheet(random: &mut Random, number: usize) -> Vec<u8> {
    match number % 8 {
        0 => FOREST.to_vec(),
        1 => {
            let size = Size::full(random);
            writing::sheet(&schemas::schema(random, size))
        }
        _ => sheets::sound(random),
    }
}

/// The stores that a load or a change left, by each of the three.
struct Left {
    quick: Stores,
    plain: Stores,
    right: Stores,
}

impl Left {
    /// What three calls left, where all that can be seen of them is the same.
    fn same(quick: Outcome, plain: Outcome, right: Outcome) -> Result<Left, Difference> {
        match quick.differs(&plain).or_else(|| plain.differs(&right)) {
            Some(difference) => Err(difference),
            None => Ok(Left {
                quick: quick.stores,
                plain: plain.stores,
                right: right.stores,
            }),
        }
    }
}

/// Plays one list up to the first difference.
fn play(
    report: &mut LongLists,
    mut random: Random,
    sheet: Vec<u8>,
    keeper: &impl Keeper,
    expected: &impl Keeper,
) -> Result<(), Difference> {
    let load = Case::new(Call::Load(sheet), Stores::default());
    let loaded = load.play(keeper);
    let mut left = Left::same(loaded.clone(), loaded, load.play(expected))?;
    for _ in 0..LENGTH {
        let change = changes::any(&mut random, &left.right.schema());
        let quick = Case::new(Call::Quick(change.clone()), left.quick).play(keeper);
        let plain = Case::new(Call::Plain(change.clone()), left.plain).play(keeper);
        let right = Case::new(Call::Plain(change), left.right).play(expected);
        report.changes += 1;
        report.done += usize::from(right.number == 0);
        left = Left::same(quick, plain, right)?;
    }
    Ok(())
}
