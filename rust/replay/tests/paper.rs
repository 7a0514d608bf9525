//! The whole sheet that the paper prints.

use generate::sheets::PAPER;
use reference::{ATTRIBUTES, CLASSES, CLOSURE, PAST, Stores};

/// The lengths of the stores, as docs/LAYOUT.md has them.
const LENGTHS: [usize; 3] = [48_386, 40_322, 10_240];

/// Stores that the sheet was loaded into.
fn loaded() -> Stores {
    let mut stores = Stores::filled(0x77);
    assert_eq!(stores.load(&PAPER).told(), (0, 0, 0));
    stores
}

/// The class store that the sheet gives, byte by byte.
fn class_store() -> Vec<u8> {
    let mut store = vec![0; LENGTHS[CLASSES]];
    store[0] = 1;
    store[2] = 3;
    store[3..6].copy_from_slice(b"top");
    store[2 + 65] = 4;
    store[2 + 66..2 + 82].copy_from_slice(&[0, 0, 0, 2, 0, 0, 0, 5, 0, 0, 0, 6, 0, 0, 0, 0]);
    store[2 + 130..2 + 146].fill(0x11);
    store[2 + 149] = 0x10;
    store[2 + 151] = 2;
    store
}

#[test]
fn it_is_loaded_into_exactly_these_bytes() {
    let stores = loaded();
    let zero = |bytes: &[u8]| bytes.iter().all(|byte| *byte == 0);
    assert!(zero(&stores.0[ATTRIBUTES][..LENGTHS[ATTRIBUTES]]));
    assert!(stores.0[CLASSES][..LENGTHS[CLASSES]] == class_store());
    assert_eq!(stores.0[CLOSURE][0], 1);
    assert!(zero(&stores.0[CLOSURE][1..LENGTHS[CLOSURE]]));
    for (store, length) in stores.0.iter().zip(LENGTHS) {
        assert_eq!(store[length..], [PAST; 16]);
    }
}

#[test]
fn it_is_in_order_and_row_0_has_no_step_to_itself() {
    let stores = loaded();
    assert_eq!(stores.audit().told(), (0, 0, 0));
    assert_eq!(stores.depth(0).told(), (0, 0, 0));
    assert_eq!(stores.depth(1).told(), (5, 0, 0));
    assert_eq!(stores.depth(128).told(), (5, 0, 0));
}

#[test]
fn it_is_written_back() {
    let stores = loaded();
    let mut out = [PAST; 70];
    assert_eq!(stores.write(&mut out).told(), (0, 0, 67));
    assert_eq!(out[..67], PAPER);
    assert_eq!(out[67..], [PAST; 3]);
    let mut short = [PAST; 66];
    assert_eq!(stores.write(&mut short).told(), (31, 0, 67));
    assert_eq!(short, [PAST; 66]);
}

#[test]
fn it_is_listed_as_the_paper_lists_it() {
    let text = reference::listing(&PAPER);
    assert_eq!(text, b"no name oid must may\n0 top 2.5.6.0 0 0\n");
}

#[test]
fn the_listing_tells_refusals_and_long_sheets() {
    assert_eq!(reference::listing(&[]), b"refused 4 0 0\n");
    assert_eq!(reference::listing(&PAPER[..4]), b"no name oid must may\n");
    assert_eq!(reference::listing(&[0x01; 32_768]), b"refused 4 0 0\n");
    assert_eq!(reference::listing(&[0x01; 32_769]), b"too long\n");
}
