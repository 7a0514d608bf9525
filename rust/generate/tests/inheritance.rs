//! Rules 21 and 38 to 40 are broken often, and by several rows of a sheet, so
//! that a load that chose the row before the rule is found out (document 02,
//! wish 3).

use generate::{Random, sheets};
use reference::Stores;
use reference::rules::Judged;
use std::collections::BTreeMap;

/// Rules of which a row breaks one at most.
const INHERITANCE: [u64; 4] = [21, 38, 39, 40];

#[test]
fn spoiled_sheets_break_each_of_them_often() {
    let mut random = Random::for_test(23);
    let mut met: BTreeMap<u64, u32> = BTreeMap::new();
    let mut row_first = 0;
    for _ in 0..4000 {
        let sheet = sheets::spoiled(&mut random);
        let number = Stores::default().load(&sheet).number;
        if !INHERITANCE.contains(&number) {
            continue;
        }
        *met.entry(number).or_default() += 1;
        let Ok(schema) = reference::reading::sheet(&sheet) else {
            continue;
        };
        let judged = Judged::standing(&schema);
        let broken = |row| {
            INHERITANCE
                .into_iter()
                .find(|rule| judged.breaks(*rule, row))
        };
        let first = schema.rows().find_map(broken);
        row_first += u32::from(first != Some(number));
    }
    println!("{met:?}, {row_first} by a row that is not the first");
    assert!(
        INHERITANCE
            .iter()
            .all(|number| met.get(number) >= Some(&30))
    );
    assert!(row_first >= 30);
}
