//! Sheets of a length asked for, and those with the longest names.

use generate::{Random, sheets};
use reference::Stores;
use reference::schema::{CLASS_LIMIT, NAME_LIMIT};

#[test]
fn a_sound_sheet_has_just_the_length_asked_for() {
    let mut random = Random::for_test(20);
    for length in [32_767, 32_768, 32_769, 24_000] {
        for _ in 0..5 {
            let sheet = sheets::sound_of_length(&mut random, length);
            assert_eq!(sheet.len(), length);
            assert_eq!(Stores::default().load(&sheet).number, 0);
        }
    }
}

#[test]
fn the_longest_names_are_accepted_and_listed() {
    let mut random = Random::for_test(21);
    for _ in 0..5 {
        let sheet = sheets::longest_names(&mut random);
        let mut stores = Stores::default();
        assert_eq!(stores.load(&sheet).number, 0);
        let classes = stores.schema().classes;
        assert_eq!(classes.len(), CLASS_LIMIT);
        assert!(
            classes
                .iter()
                .all(|row| row.common.name.len() == NAME_LIMIT)
        );
        assert!(reference::listing(&sheet).len() > 30_000);
    }
}
