//! The comparison finds a quick change that is wrong in one thing, without the
//! library linked.

use compare::{Call, Keeper, LENGTH, Reference, compare, compare_long};
use reference::closure::afresh;
use reference::layout::Tables;
use reference::{CLOSURE, Stores, changes, reading};

/// So many inputs at random are enough to find each.
const COUNT: usize = 2000;

/// So many long lists.
const LISTS: usize = 8;

/// A keeper whose quick change is wrong in one thing.
#[derive(Clone, Copy, Debug)]
enum Wrong {
    /// It is the plain change under another name.
    PlainRenamed,
    /// It makes a change that 30 refuses.
    ForgetsThirty,
    /// It adds entries and classes and joins nothing to the kept sets.
    JoinsNothing,
    /// It removes entries and works no kept sets out afresh.
    RefreshesNothing,
}

/// The tags of the changes: an added class, an entry added and removed.
const ADD_CLASS: u8 = 0x41;
const ADD_ENTRY: u8 = 0x49;
const REMOVE_ENTRY: u8 = 0x4A;

impl Wrong {
    /// Whether a change that is done leaves the kept sets as they were.
    fn keeps_sets(self, change: &[u8]) -> bool {
        match (self, change.first()) {
            (Wrong::JoinsNothing, Some(tag)) => [ADD_CLASS, ADD_ENTRY].contains(tag),
            (Wrong::RefreshesNothing, Some(tag)) => *tag == REMOVE_ENTRY,
            _ => false,
        }
    }
}

/// Makes a change that can be read, whatever refuses it; its number is then 0.
fn make(change: &[u8], stores: &mut Stores, detail: &mut [u64]) -> u64 {
    let (Ok(before), Ok(change)) = (stores.tables(), reading::change(change)) else {
        return 30;
    };
    let schema = changes::applied(&before.schema, &change);
    let kept = afresh(&schema);
    reference::layout::encode(&Tables { schema, kept }, stores);
    if let [table, place, ..] = detail {
        *table = 2;
        *place = u64::from(change.row(&before.schema).number());
    }
    0
}

impl Keeper for Wrong {
    fn make(&self, call: &Call, stores: &mut Stores, out: &mut [u8], detail: &mut [u64]) -> u64 {
        let Call::Quick(change) = call else {
            return Reference.make(call, stores, out, detail);
        };
        if matches!(self, Wrong::PlainRenamed) {
            return Reference.make(&Call::Plain(change.clone()), stores, out, detail);
        }
        let before = stores.0[CLOSURE].clone();
        let number = Reference.make(call, stores, out, detail);
        match (self, number) {
            (Wrong::ForgetsThirty, 30) => return make(change, stores, detail),
            (_, 0) if self.keeps_sets(change) => stores.0[CLOSURE] = before,
            _ => {}
        }
        number
    }
}

#[test]
fn a_wrong_quick_change_differs() {
    let wrong = [
        Wrong::PlainRenamed,
        Wrong::ForgetsThirty,
        Wrong::JoinsNothing,
        Wrong::RefreshesNothing,
    ];
    for keeper in wrong {
        let report = compare(&keeper, &Reference, 1, COUNT);
        assert!(!report.differences.is_empty(), "{keeper:?}");
    }
}

/// From a load on, the plain change renamed is a quick change that is right.
#[test]
fn long_lists_find_what_differs_on_stores_in_order() {
    for keeper in [
        Wrong::ForgetsThirty,
        Wrong::JoinsNothing,
        Wrong::RefreshesNothing,
    ] {
        let report = compare_long(&keeper, &Reference, 1, LISTS);
        assert!(!report.differences.is_empty(), "{keeper:?}");
    }
    let renamed = compare_long(&Wrong::PlainRenamed, &Reference, 1, LISTS);
    assert_eq!(renamed.differences, Vec::<String>::new());
}

#[test]
fn the_references_quick_change_does_not_differ_from_its_plain_one() {
    let report = compare_long(&Reference, &Reference, 1, LISTS);
    assert_eq!(report.differences, Vec::<String>::new());
    assert_eq!(report.changes, LISTS * LENGTH);
    println!("{} of {} changes done", report.done, report.changes);
    assert!(report.done * 5 > report.changes);
}
