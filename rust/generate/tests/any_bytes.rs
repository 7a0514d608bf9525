//! Demand 1: any bytes may come in as sheet, change or tables. Refused calls
//! alter nothing, but for a refused load, and no call touches bytes past the
//! stores.

use generate::{Random, changes, sheets, stores};
use reference::{LENGTHS, PAST, Stores};
/// The bytes past the stores' lengths.
fn past(stores: &Stores) -> Vec<u8> {
    let rests = stores.0.iter().zip(LENGTHS);
    let rests = rests.map(|(store, length)| store.get(length..).unwrap_or_default());
    rests.collect::<Vec<_>>().concat()
}

fn is_short(stores: &Stores) -> bool {
    let mut stores = stores.0.iter().zip(LENGTHS);
    stores.any(|(store, length)| store.len() < length)
}

#[test]
fn refused_changes_alter_nothing() {
    let mut random = Random::for_test(8);
    for _ in 0..400 {
        let before = stores::any(&mut random);
        for _ in 0..4 {
            let change = changes::any(&mut random, &before.schema());
            for quick in [true, false] {
                let mut stores = before.clone();
                let answer = match quick {
                    true => stores.quick(&change),
                    false => stores.plain(&change),
                };
                assert_eq!(is_short(&before), answer.number == 1);
                assert_eq!(past(&stores), past(&before));
                if answer.number != 0 {
                    assert!(stores == before);
                    assert_eq!(answer.table, 0);
                    assert!(answer.place == 0 || answer.number == 4);
                }
            }
        }
    }
}

#[test]
fn a_refused_load_leaves_every_store_byte_zero() {
    let mut random = Random::for_test(9);
    for _ in 0..600 {
        let before = stores::any(&mut random);
        let mut stores = before.clone();
        let answer = stores.load(&sheets::any(&mut random));
        assert_eq!(past(&stores), past(&before));
        match answer.number {
            0 => assert_eq!(stores.audit().number, 0),
            1 => assert!(stores == before),
            _ => {
                let zero = |(store, length): (&Vec<u8>, usize)| {
                    store[..length].iter().all(|byte| *byte == 0)
                };
                assert!(stores.0.iter().zip(LENGTHS).all(zero));
            }
        }
    }
}

#[test]
fn a_load_never_looks_at_what_stood_in_the_stores() {
    let mut random = Random::for_test(10);
    for _ in 0..300 {
        let sheet = sheets::any(&mut random);
        let mut one = stores::in_order(&mut random);
        let mut other = stores::out_of_order(&mut random);
        assert_eq!(one.load(&sheet), other.load(&sheet));
        assert!(one == other);
    }
}

#[test]
fn a_write_keeps_what_it_does_not_need() {
    let mut random = Random::for_test(11);
    for _ in 0..400 {
        let stores = stores::any(&mut random);
        let mut out = vec![PAST; random.below(20_000)];
        let answer = stores.write(&mut out);
        let written = match answer.number {
            0 => answer.place as usize,
            _ => 0,
        };
        assert!(out[written..].iter().all(|byte| *byte == PAST));
        if answer.number == 31 {
            assert!(answer.place as usize > out.len());
        }
    }
}

#[test]
fn the_listing_says_what_the_load_says() {
    let mut random = Random::for_test(12);
    let mut stores = Stores::default();
    for _ in 0..400 {
        let sheet = sheets::any(&mut random);
        let text = String::from_utf8_lossy(&reference::listing(&sheet)).into_owned();
        let answer = stores.load(&sheet);
        assert!(text.ends_with('\n'));
        if sheet.len() > reference::LISTED_LIMIT {
            assert_eq!(text, "too long\n");
        } else if answer.number == 0 {
            assert_eq!(text.lines().count(), 1 + stores.schema().classes.len());
        } else {
            let (number, table, place) = (answer.number, answer.table, answer.place);
            assert_eq!(text, format!("refused {number} {table} {place}\n"));
        }
    }
}
