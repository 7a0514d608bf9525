//! Linked attributes hold names (document 02, wish 8): those of sound schemas
//! have every syntax that fits, and those of spoiled ones any.

use generate::{Random, schemas, sheets};
use reference::Stores;
use std::collections::BTreeSet;

#[test]
fn sound_schemas_have_links_of_every_syntax_that_fits() {
    let mut random = Random::for_test(24);
    let (mut even, mut odd) = (BTreeSet::new(), BTreeSet::new());
    let (mut linked, mut all) = (0, 0);
    for _ in 0..100 {
        for row in schemas::any(&mut random).attributes {
            all += 1;
            linked += u32::from(row.link_id.is_some());
            match row.link_id {
                Some(link) if link % 2 == 0 => even.insert(row.syntax),
                Some(_) => odd.insert(row.syntax),
                None => false,
            };
        }
    }
    assert_eq!((even, odd), ([1, 7, 14].into(), [1].into()));
    assert!(linked * 8 > all, "{linked} of {all}");
}

#[test]
fn spoiled_sheets_have_links_of_every_syntax() {
    let mut random = Random::for_test(25);
    let (mut even, mut odd, mut refused) = (BTreeSet::new(), BTreeSet::new(), 0);
    for _ in 0..8000 {
        let sheet = sheets::spoiled(&mut random);
        refused += u32::from(Stores::default().load(&sheet).number == 45);
        for row in reference::reading::sheet(&sheet)
            .unwrap_or_default()
            .attributes
        {
            match row.link_id {
                Some(link) if link % 2 == 0 => even.insert(row.syntax),
                Some(_) => odd.insert(row.syntax),
                None => false,
            };
        }
    }
    println!("{refused} refused with 45");
    assert!((1..=17).all(|syntax| even.contains(&syntax) && odd.contains(&syntax)));
    assert!(refused > 50);
}
