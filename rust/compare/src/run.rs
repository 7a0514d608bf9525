//! The comparison itself.

use crate::cases::cases;
use crate::keeper::Keeper;
use generate::coverage::Coverage;
use std::collections::BTreeMap;

/// After so many differences nothing more is learnt.
const ENOUGH: usize = 10;

/// What a comparison came to.
#[derive(Clone, Debug, Default)]
pub struct Report {
    /// How often each call gave each number.
    pub coverage: Coverage,
    /// How many inputs were compared.
    pub inputs: usize,
    /// How many of them are quick changes of stores in shape and not in order.
    pub disordered: usize,
    /// How often each number was given to quick changes above whose row the chain
    /// of superclasses goes astray.
    pub astray: BTreeMap<u64, usize>,
    /// The differences found, each with the input's number and call.
    pub differences: Vec<String>,
}

/// Plays every input with both keepers; `expected` is the one that is right.
pub fn compare(keeper: &impl Keeper, expected: &impl Keeper, seed: u64, count: usize) -> Report {
    let mut report = Report::default();
    for (number, case) in cases(seed, count).enumerate() {
        let got = case.play(keeper);
        let name = case.call.name();
        report.inputs += 1;
        report.disordered += usize::from(case.is_quick_on_disorder());
        report.coverage.note(name, got.number);
        if case.is_quick_on_disorder() && case.is_quick_astray() {
            *report.astray.entry(got.number).or_default() += 1;
        }
        if let Some(difference) = got.differs(&case.play(expected)) {
            let line = format!("input {number}, {name}: {difference}");
            report.differences.push(line);
        }
        if report.differences.len() == ENOUGH {
            break;
        }
    }
    report
}
