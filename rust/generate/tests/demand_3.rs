//! Demand 3, over lists of changes from loaded schemas.

use generate::{Random, changes, schemas, stores};
use reference::changes::{Alteration, Change};
use reference::closure::{Kept, afresh};
use reference::layout::Tables;
use reference::schema::{OpenList, Row};
use reference::{Answer, Stores, writing};

/// The tables of stores that are in shape.
fn tables(stores: &Stores) -> Tables {
    match stores.tables() {
        Ok(tables) => tables,
        Err(_) => unreachable!("the stores are in shape"),
    }
}

/// "every class's kept sets equal those worked out afresh, and the class
/// demands exactly the mandatory attributes it had when the load or its
/// addition ended. Every row but the one changed stays put, and so do the kept
/// sets of classes that do not then reach it."
fn assert_only_that_change(before: &Tables, after: &Tables, answer: Answer) {
    assert!(after.kept == afresh(&after.schema));
    let changed = match (answer.number, answer.table) {
        (0, 1) => Some(Row::Attribute(answer.place as u16)),
        (0, 2) => Some(Row::Class(answer.place as u16)),
        _ => None,
    };
    if changed.is_none() {
        assert!(before == after);
    }
    assert_rows_stay(before, after, changed);
    assert_kept_sets_stay(before, after, changed);
}

fn assert_rows_stay(before: &Tables, after: &Tables, changed: Option<Row>) {
    for (number, attribute) in (0..).zip(&before.schema.attributes) {
        if changed != Some(Row::Attribute(number)) {
            assert!(after.schema.attribute(number) == Some(attribute));
        }
    }
    for (number, class) in (0..).zip(&before.schema.classes) {
        if changed != Some(Row::Class(number)) {
            assert!(after.schema.class(number) == Some(class));
        }
    }
}

fn assert_kept_sets_stay(before: &Tables, after: &Tables, changed: Option<Row>) {
    let present = usize::from(before.schema.next_class());
    for (place, (old, new)) in before.kept.iter().zip(&after.kept).enumerate() {
        if place < present {
            assert!(old.mandatory == new.mandatory);
        }
        let reaches = |sets: &Kept| match changed {
            Some(Row::Class(number)) => sets.reached.contains(&number),
            _ => false,
        };
        assert_eq!(reaches(old), reaches(new) && place < present);
        if !reaches(new) {
            assert!(old == new);
        }
    }
}

/// Plays a list of changes by both calls; tells how many were accepted.
fn play(random: &mut Random, mut stores: Stores, length: usize) -> usize {
    let mut copy = stores.clone();
    let mut accepted = 0;
    for _ in 0..length {
        let before = tables(&stores);
        let change = changes::any(random, &before.schema);
        let answer = stores.quick(&change);
        assert_eq!(copy.plain(&change), answer);
        assert!(copy == stores);
        assert_only_that_change(&before, &tables(&stores), answer);
        accepted += usize::from(answer.number == 0);
    }
    assert_eq!(stores.audit().number, 0);
    accepted
}

#[test]
fn quick_is_plain_in_answers_and_bytes_over_lists_of_changes() {
    let mut random = Random::for_test(5);
    let (mut accepted, mut all) = (0, 0);
    for _ in 0..300 {
        let stores = stores::in_order(&mut random);
        accepted += play(&mut random, stores, 20);
        all += 20;
    }
    println!("{accepted} of {all} changes accepted");
    assert!(accepted * 5 > all);
}

#[test]
fn quick_is_plain_at_the_limits_of_the_tables() {
    let mut random = Random::for_test(6);
    for _ in 0..8 {
        let size = schemas::Size::full(&mut random);
        let schema = schemas::schema(&mut random, size);
        let mut stores = Stores::default();
        stores.load(&writing::sheet(&schema));
        play(&mut random, stores, 15);
    }
}

/// The classes whose kept sets the answer may depend on.
fn matter(change: &Change) -> Vec<u16> {
    match change {
        Change::Alter { target, alteration } => match alteration {
            Alteration::AddEntry {
                list: OpenList::Auxiliary,
                entry,
            } => vec![target.number(), *entry],
            _ => vec![target.number()],
        },
        _ => vec![],
    }
}

/// "On any two lots of stores, in order or not, alike in all but the kept sets
/// of classes other than the one to be changed and the auxiliary named, quick
/// answers to the same change are equal."
#[test]
fn quick_answers_depend_on_no_other_kept_sets() {
    let mut random = Random::for_test(7);
    let mut accepted = 0;
    for _ in 0..1500 {
        let mut stores = match random.once_in(3) {
            true => stores::in_order(&mut random),
            false => stores::out_of_order(&mut random),
        };
        let before = tables(&stores);
        let change = changes::plausible(&mut random, &before.schema);
        let mut other = Stores::holding(&disordered(&mut random, &before, &change));
        let bytes = changes::bytes(&change);
        let answer = stores.quick(&bytes);
        assert_eq!(other.quick(&bytes), answer);
        accepted += usize::from(answer.number == 0);
    }
    assert!(accepted > 200);
}

/// The same tables but for kept sets that must not matter.
fn disordered(random: &mut Random, before: &Tables, change: &Change) -> Tables {
    let mut other = before.clone();
    stores::disorder_kept(random, &mut other.kept);
    for class in matter(change) {
        let place = usize::from(class);
        if let (Some(kept), Some(same)) = (other.kept.get_mut(place), before.kept.get(place)) {
            *kept = same.clone();
        }
    }
    other
}
