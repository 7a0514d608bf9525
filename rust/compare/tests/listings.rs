//! The comparison of listings reaches what it is there for, without a program.

use compare::{Listings, compare_listings};
use reference::{LISTED_LIMIT, listing};
use std::convert::Infallible;

/// The comparison with a program that prints this.
fn compared(program: impl Fn(&[u8]) -> Vec<u8>) -> Listings {
    let report = compare_listings(|sheet| Ok::<_, Infallible>(program(sheet)), 1, 300);
    report.unwrap_or_default()
}

#[test]
fn the_reference_lists_as_itself_and_every_kind_is_reached() {
    let report = compared(listing);
    assert_eq!(report.differences, Vec::<String>::new());
    assert_eq!(report.sheets(), 300);
    assert!(report.just_listed > 5);
    assert!(report.listed > 50);
    assert!(report.refused > 50);
    assert!(report.too_long > 20);
}

#[test]
fn a_program_that_lists_otherwise_differs() {
    let differ = |program: fn(&[u8]) -> Vec<u8>| !compared(program).differences.is_empty();
    // One byte too few is listed.
    assert!(differ(|sheet| match sheet.len() {
        LISTED_LIMIT => b"too long\n".to_vec(),
        _ => listing(sheet),
    }));
    // What is too long is cut.
    assert!(differ(|sheet| listing(
        &sheet[..sheet.len().min(LISTED_LIMIT)]
    )));
    // The last line feed is missing.
    assert!(differ(|sheet| {
        let mut text = listing(sheet);
        text.pop();
        text
    }));
    // A long text is cut.
    assert!(differ(|sheet| {
        let mut text = listing(sheet);
        text.truncate(30_000);
        text
    }));
}

#[test]
fn an_error_of_the_program_is_told() {
    let report = compare_listings(|_| Err::<Vec<u8>, _>("no program"), 1, 300);
    assert_eq!(report.map(|report| report.sheets()), Err("no program"));
}
