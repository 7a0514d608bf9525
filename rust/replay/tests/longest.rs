//! The longest sheet, too long for a script: stores in shape, though not in
//! order, with every row and all of it used.

use reference::{ATTRIBUTES, CLASSES, PAST, Stores};

/// Put together by hand, as docs/LAYOUT.md has the rows.
fn fullest() -> Stores {
    let common = [&[64][..], &[b'a'; 64], &[16], &[1; 64], &[1; 20], &[1]].concat();
    let object = [&[1, 127, 16][..], &[1; 16]].concat();
    let attribute = [&common[..], &object, &[1; 11], &[1; 8]].concat();
    let class = [&common[..], &[3, 127, 1, 255], &[0xFF; 160]].concat();
    assert_eq!((attribute.len(), class.len()), (189, 315));
    let mut stores = Stores::default();
    stores.0[ATTRIBUTES] = [vec![1, 0], attribute.repeat(256)].concat();
    stores.0[CLASSES] = [vec![128, 0], class.repeat(128)].concat();
    stores
}

#[test]
fn it_has_410756_bytes() {
    let stores = fullest();
    let mut out = vec![PAST; 410_760];
    let short = stores.write(&mut out[..410_755]);
    assert_eq!(short.told(), (31, 0, 410_756));
    assert!(out.iter().all(|byte| *byte == PAST));
    assert_eq!(stores.write(&mut out).told(), (0, 0, 410_756));
    assert_eq!(out[410_756..], [PAST; 4]);
    let loaded = Stores::default().load(&out[..410_756]);
    assert_eq!(loaded.told(), (13, 1, 0));
    assert_eq!(Stores::default().load(&out).told(), (4, 0, 410_756));
}
