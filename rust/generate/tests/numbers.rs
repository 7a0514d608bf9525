//! Every number that the papers let a call give is reached, and no other.

use generate::coverage::{CALLS, Coverage, may_give};
use reference::NUMBERS;
use reference::rules::RULES;

#[test]
fn every_number_is_reached() {
    let coverage = Coverage::of(1, 700);
    println!("{coverage}");
    for call in CALLS {
        for number in 0..=60 {
            let reached = coverage.count(call, number) > 0;
            assert_eq!(reached, may_give(call, number), "{call} {number}");
        }
    }
}

/// Every number is a rule or one of those before and behind the rules, and each
/// stands once.
#[test]
fn the_numbers_are_those_of_the_rules_and_the_rest() {
    let others = (0..=11).chain([30, 31]);
    let mut numbers: Vec<u64> = others.chain(RULES).collect();
    numbers.sort_unstable();
    assert_eq!(numbers, NUMBERS);
}
