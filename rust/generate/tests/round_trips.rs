//! "Tables, sheet, tables gives the same bytes if in order; sheet, tables,
//! sheet does if accepted and 08 stands exactly where oMSyntax is 127."

use generate::{Random, schemas, sheets, stores};
use reference::{Stores, writing};

fn written(stores: &Stores) -> Vec<u8> {
    let mut out = vec![0; 420_000];
    let answer = stores.write(&mut out);
    assert_eq!((answer.number, answer.table), (0, 0));
    out.truncate(answer.place as usize);
    out
}

#[test]
fn tables_sheet_tables() {
    let mut random = Random::for_test(1);
    for _ in 0..400 {
        let stores = stores::in_order(&mut random);
        assert_eq!(stores.audit().number, 0);
        let mut again = stores::any(&mut random);
        let answer = again.load(&written(&stores));
        if answer.number == 1 {
            continue;
        }
        assert_eq!(answer.number, 0);
        assert!(again.tables() == stores.tables());
        again = Stores::default();
        again.load(&written(&stores));
        assert!(again == stores);
    }
}

#[test]
fn sheet_tables_sheet() {
    let mut random = Random::for_test(2);
    for _ in 0..400 {
        let schema = schemas::any(&mut random);
        let sheet = writing::sheet(&schema);
        let mut stores = Stores::default();
        assert_eq!(stores.load(&sheet).number, 0);
        assert!(written(&stores) == sheet);
        assert!(stores.schema() == schema);
    }
}

#[test]
fn a_sheet_with_08_elsewhere_is_another_one_the_second_time_only() {
    let mut random = Random::for_test(3);
    let mut otherwise = 0;
    for _ in 0..200 {
        let sheet = sheets::other_object_classes(&mut random);
        let mut stores = Stores::default();
        assert_eq!(stores.load(&sheet).number, 0);
        let second = written(&stores);
        let mut again = Stores::default();
        assert_eq!(again.load(&second).number, 0);
        assert!(again == stores);
        assert!(written(&again) == second);
        otherwise += usize::from(second != sheet);
    }
    assert!(otherwise > 50);
}

/// The fields side by side in a sound value: tags and values.
fn fields(mut bytes: &[u8]) -> Vec<(u8, &[u8])> {
    let mut fields = Vec::new();
    while let [tag, high, low, rest @ ..] = bytes {
        let length = usize::from(u16::from_be_bytes([*high, *low]));
        fields.push((*tag, &rest[..length]));
        bytes = &rest[length..];
    }
    fields
}

/// "08 stands exactly where oMSyntax is 127"
fn stands_exactly(sheet: &[u8]) -> bool {
    let attributes = fields(sheet).into_iter().filter(|(tag, _)| *tag == 0x20);
    attributes.map(|(_, value)| fields(value)).all(|row| {
        let object = row.contains(&(0x07, &[127]));
        let given = row.iter().any(|(tag, _)| *tag == 0x08);
        object == given
    })
}

#[test]
fn an_accepted_sheet_comes_back_exactly_if_08_stands_exactly_there() {
    let mut random = Random::for_test(4);
    let (mut back, mut otherwise) = (0, 0);
    for _ in 0..900 {
        let sheet = sheets::any(&mut random);
        let mut stores = Stores::default();
        if stores.load(&sheet).number == 0 {
            let second = written(&stores);
            assert_eq!(second == sheet, stands_exactly(&sheet));
            let mut again = Stores::default();
            assert_eq!(again.load(&second).number, 0);
            assert!(again == stores);
            back += usize::from(second == sheet);
            otherwise += usize::from(second != sheet);
        }
    }
    assert!(back > 100 && otherwise > 20);
}
