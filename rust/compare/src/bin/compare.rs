//! Compares the keeper, through its C interface and through the safe functions
//! of `keeper`, with the reference: `compare [SEED [COUNT]]`. Exits with 1 where
//! they differ, with 2 where an argument is not understood.

use compare::linked::{Declared, Wrapped};
use compare::{Keeper, LENGTH, Reference, Report, compare, compare_long};
use generate::arguments::numbers;
use std::process::ExitCode;

/// Prints the differences and how many there are. Returns whether there are
/// none.
fn told(way: &str, seed: u64, report: &Report) -> bool {
    for difference in &report.differences {
        println!("{difference}");
    }
    let (inputs, differences) = (report.inputs, report.differences.len());
    let disordered = report.disordered;
    let astray: usize = report.astray.values().sum();
    println!(
        "seed {seed}, {way}: {disordered} quick changes on stores in shape and not in order, \
         {astray} of them below a chain that goes astray"
    );
    println!("seed {seed}, {way}: {inputs} inputs compared, {differences} differ");
    report.differences.is_empty()
}

/// So many long lists are played each way.
const LISTS: usize = 32;

/// Plays the long lists and prints what they came to. Returns whether nothing
/// differs.
fn played(way: &str, seed: u64, keeper: &impl Keeper) -> bool {
    let report = compare_long(keeper, &Reference, seed, LISTS);
    for difference in &report.differences {
        println!("{difference}");
    }
    let (lists, changes, done) = (report.lists, report.changes, report.done);
    let differences = report.differences.len();
    println!(
        "seed {seed}, {way}: {lists} lists of {LENGTH} changes, {changes} by quick and plain, \
         {done} done, {differences} lists differ"
    );
    report.differences.is_empty()
}

fn main() -> ExitCode {
    let Some([seed, count]) = numbers(std::env::args().skip(1), [1, 20_000]) else {
        eprintln!("usage: compare [SEED [COUNT]]");
        return ExitCode::from(2);
    };
    let declared = compare(&Declared, &Reference, seed, count as usize);
    println!("{}", declared.coverage);
    let declared = told("C interface", seed, &declared) & played("C interface", seed, &Declared);
    let wrapped = compare(&Wrapped, &Reference, seed, count as usize);
    let wrapped = told("safe functions", seed, &wrapped) & played("safe functions", seed, &Wrapped);
    ExitCode::from(u8::from(!(declared && wrapped)))
}
