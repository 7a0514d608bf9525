//! The safe functions of `keeper` as a caller uses them: with the lengths and
//! the stack that the crate names.

use generate::changes::bytes;
use keeper::{Answer, DONE, LONGEST_SHEET, Stores};
use reference::changes::{Alteration, Change};
use reference::layout::Tables;
use reference::schema::{
    ARC_LIMIT, ATTRIBUTE_LIMIT, Attribute, CLASS_LIMIT, Category, Class, Common, NAME_LIMIT,
    Numbers, OBJECT_CLASS_LIMIT, OpenList, Row, Schema,
};
use reference::{closure, writing};
use std::thread;

const FOREST: &[u8] = include_bytes!("../../../samples/forest.sheet");

/// An answer without a table.
fn answer(number: u64, place: usize) -> Answer {
    Answer {
        number,
        table: 0,
        place: place as u64,
    }
}

#[test]
fn the_forest_is_loaded_asked_and_written_back() {
    let mut stores = Stores::default();
    assert_eq!(stores.load(FOREST), answer(DONE, 0));
    assert_eq!(stores.audit(), answer(DONE, 0));
    assert_eq!(stores.depth(19), answer(DONE, 3));
    assert_eq!(stores.depth(25), answer(5, 0));
    let mut output = vec![0; LONGEST_SHEET];
    assert_eq!(stores.write(&mut output), answer(DONE, FOREST.len()));
    assert!(output[..FOREST.len()] == *FOREST);
    let short = &mut output[..FOREST.len() - 1];
    assert_eq!(stores.write(short), answer(31, FOREST.len()));
}

/// The answers name rows, too.
#[test]
fn a_refused_sheet_tells_table_and_row() {
    let refused = include_bytes!("../../../samples/refused.sheet");
    let told = Stores::default().load(refused);
    assert_eq!((told.number, told.table, told.place), (13, 1, 1));
}

/// An attribute gets a name.
fn renamed(attribute: u16, name: &[u8]) -> Change {
    Change::Alter {
        target: Row::Attribute(attribute),
        alteration: Alteration::Name(name.to_vec()),
    }
}

/// A change that is done tells its row, one that is refused alters nothing.
#[test]
fn the_forest_is_changed() {
    let mut stores = Stores::default();
    assert_eq!(stores.load(FOREST), answer(DONE, 0));
    let loaded = stores.clone();
    assert_eq!(
        stores.plain_change(&bytes(&renamed(19, b"AREAHA"))),
        answer(13, 0)
    );
    assert!(stores == loaded);
    let told = stores.plain_change(&bytes(&renamed(17, b"woodedHa")));
    assert_eq!((told.number, told.table, told.place), (0, 1, 17));
    assert!(stores != loaded);
    assert_eq!(stores.audit(), answer(DONE, 0));
    let told = stores.plain_change(&bytes(&renamed(19, b"AREAHA")));
    assert_eq!((told.number, told.table, told.place), (0, 1, 19));
}

/// The quick change gives what the plain one gives, in every answer and byte.
#[test]
fn the_forest_is_changed_quickly() {
    let mut stores = Stores::default();
    assert_eq!(stores.load(FOREST), answer(DONE, 0));
    let mut copy = stores.clone();
    let made: [(u16, &[u8]); 3] = [(19, b"AREAHA"), (17, b"woodedHa"), (19, b"AREAHA")];
    for (attribute, name) in made {
        let change = bytes(&renamed(attribute, name));
        assert_eq!(stores.quick_change(&change), copy.plain_change(&change));
        assert!(stores == copy);
    }
    assert_eq!(stores.audit(), answer(DONE, 0));
}

/// All rows below the limit.
fn all(limit: usize) -> Numbers {
    (0..limit as u16).collect()
}

/// Rows with all that a row may have, each as long as it may be.
fn longest() -> Schema {
    let common = Common {
        name: vec![b'a'; NAME_LIMIT],
        arcs: vec![1; ARC_LIMIT],
        defunct: true,
        ..Common::default()
    };
    let attribute = Attribute {
        common: common.clone(),
        om_object_class: vec![1; OBJECT_CLASS_LIMIT],
        single_valued: true,
        range_lower: Some(1),
        range_upper: Some(2),
        link_id: Some(1),
        mapi_id: Some(1),
        syntax: 7,
        om_syntax: 127,
    };
    let class = Class {
        common,
        naming: Some(0),
        mandatory: all(ATTRIBUTE_LIMIT),
        fixed_optional: all(ATTRIBUTE_LIMIT),
        open_optional: all(ATTRIBUTE_LIMIT),
        fixed_auxiliary: all(CLASS_LIMIT),
        open_auxiliary: all(CLASS_LIMIT),
        fixed_superiors: all(CLASS_LIMIT),
        open_superiors: all(CLASS_LIMIT),
        ..Class::default()
    };
    Schema {
        attributes: vec![attribute; ATTRIBUTE_LIMIT],
        classes: vec![class; CLASS_LIMIT],
    }
}

#[test]
fn the_longest_sheet_is_as_long_as_counted() {
    let schema = longest();
    let sheet = writing::sheet(&schema);
    assert_eq!(sheet.len(), LONGEST_SHEET);
    let kept = closure::afresh(&schema);
    let stores = reference::Stores::holding(&Tables { schema, kept });
    let mut output = vec![0; LONGEST_SHEET];
    let written = Stores(stores.lent()).write(&mut output);
    assert_eq!(written, answer(DONE, LONGEST_SHEET));
    assert!(output == sheet);
}

/// A full schema that a load accepts: each class stands under the one before
/// it and has all others as auxiliaries.
fn deepest() -> Schema {
    let common = |table: &str, number: u16| Common {
        name: format!("{table}-{number}").into_bytes(),
        arcs: vec![1, table.len() as u32, u32::from(number)],
        guid: u128::from(number) << 8 | table.len() as u128,
        ..Common::default()
    };
    let attribute = |number| Attribute {
        common: common("attribute", number),
        syntax: 12,
        om_syntax: 64,
        ..Attribute::default()
    };
    let class = |number: u16| Class {
        common: common("class", number),
        category: match number {
            0 => Category::Abstract,
            _ => Category::EightyEight,
        },
        superclass: number.saturating_sub(1),
        mandatory: all(ATTRIBUTE_LIMIT),
        fixed_auxiliary: (1..CLASS_LIMIT as u16)
            .filter(|other| *other != number)
            .collect(),
        ..Class::default()
    };
    Schema {
        attributes: (0..ATTRIBUTE_LIMIT as u16).map(attribute).collect(),
        classes: (0..CLASS_LIMIT as u16).map(class).collect(),
    }
}

/// The last class of that schema.
fn last_class(alteration: Alteration) -> Change {
    Change::Alter {
        target: Row::Class(127),
        alteration,
    }
}

/// It may have attribute 0, which it demands anyway.
fn allowed_more() -> Change {
    let list = OpenList::Optional;
    last_class(Alteration::AddEntry { list, entry: 0 })
}

/// It may no longer have it: the kept sets of all classes are worked out afresh.
fn allowed_less() -> Change {
    let list = OpenList::Optional;
    last_class(Alteration::RemoveEntry { list, entry: 0 })
}

#[test]
fn the_stack_named_is_enough_for_the_deepest_schema() {
    let sheet = writing::sheet(&deepest());
    let mut output = vec![0; sheet.len()];
    let mut stores = Stores::default();
    let calls = move || {
        assert_eq!(stores.load(&sheet), answer(DONE, 0));
        assert_eq!(stores.audit(), answer(DONE, 0));
        assert_eq!(stores.depth(127), answer(DONE, 127));
        assert_eq!(stores.write(&mut output), answer(DONE, sheet.len()));
        assert!(output == sheet);
        for change in [allowed_more(), allowed_less()].map(|change| bytes(&change)) {
            let mut copy = stores.clone();
            let told = copy.plain_change(&change);
            assert_eq!((told.number, told.table, told.place), (0, 2, 127));
            assert_eq!(stores.quick_change(&change), told);
            assert!(stores == copy);
        }
    };
    let thread = thread::Builder::new().stack_size(keeper::STACK);
    let ended = thread.spawn(calls).map(|thread| thread.join().is_ok());
    assert!(ended.is_ok_and(|well| well));
}
