//! The changes that docs/FORMAT.md shows under "One change of each kind", spoiled
//! in every way that one byte allows.

use crate::case::{Call, Case};
use reference::Stores;

/// The schema that they are made to: `cn` and `standAge`, `top` and `stand`.
const SHEET: &str = "01000101
    20003D 010002636E 02001000000002000000050000000400000003
    03001022222222222222222222222222222222 04000400000010 0600010C 07000140 090000
    20003F 0100087374616E64416765 02000C00000002000003E700000001
    03001033333333333333333333333333333333 04000400000000 06000109 07000102 090000
    30003C 010003746F70 02001000000002000000050000000600000000
    03001011111111111111111111111111111111 04000400000010 10000102 1100020000
    300049 0100057374616E64 02000C00000002000003E70000000A
    03001044444444444444444444444444444444 04000400000000 10000101 1100020000
    1200020000 1300020000 1500020001";

/// Each is accepted after those before it.
const CHANGES: [&str; 11] = [
    "400038 010004736F696C 02000C00000002000003E700000002
     03001055555555555555555555555555555555 04000400000000 0600010C 07000140",
    "410042 0100087375727665796564 02000C00000002000003E70000000B
     03001066666666666666666666666666666666 04000400000000 10000103 1100020000 1300020001",
    "420013 2000020001 0A000400000000 0B000400000384",
    "430010 2000020001 0100086167655965617273",
    "440010 2000020002 0100086D65617375726564",
    "450005 2000020002",
    "460005 2000020002",
    "470005 2000020002",
    "480005 2000020002",
    "49000E 2000020001 21000115 2200020002",
    "4A000E 2000020001 21000115 2200020002",
];

/// All bytes of the changes.
const BYTES: usize = 254;

/// So many inputs there are: each byte with each value, and each cut, by the
/// plain and by the quick call.
pub const EXPECTED: usize = 2 * (256 * BYTES + (BYTES + CHANGES.len()));

/// Bytes in hex digits, with spaces anywhere.
fn hex(text: &str) -> Vec<u8> {
    let digits = text.chars().filter_map(|digit| digit.to_digit(16));
    let digits: Vec<u8> = digits.map(|digit| digit as u8).collect();
    digits
        .chunks(2)
        .map(|pair| pair[0] << 4 | pair[1])
        .collect()
}

/// Each change with the stores that it is made to.
fn accepted() -> impl Iterator<Item = (Stores, Vec<u8>)> {
    let mut stores = Stores::default();
    stores.load(&hex(SHEET));
    CHANGES.into_iter().map(move |text| {
        let change = hex(text);
        let before = stores.clone();
        stores.plain(&change);
        (before, change)
    })
}

/// A change by the plain and by the quick call.
fn by_both(stores: &Stores, change: &[u8]) -> [Case; 2] {
    let calls = [Call::Plain(change.to_vec()), Call::Quick(change.to_vec())];
    calls.map(|call| Case::new(call, stores.clone()))
}

/// Each change with each byte replaced by each value.
pub fn every_byte() -> impl Iterator<Item = Case> {
    accepted().flat_map(|(stores, change)| {
        let bytes = (0..change.len()).flat_map(|place| (0..=255).map(move |byte| (place, byte)));
        bytes.flat_map(move |(place, byte)| {
            let mut change = change.clone();
            change[place] = byte;
            by_both(&stores, &change)
        })
    })
}

/// Each change cut at each place.
pub fn every_prefix() -> impl Iterator<Item = Case> {
    accepted().flat_map(|(stores, change)| {
        (0..=change.len()).flat_map(move |length| by_both(&stores, &change[..length]))
    })
}

#[cfg(test)]
mod tests {
    use super::*;

    #[test]
    fn each_change_is_accepted_and_all_bytes_are_counted() {
        let mut bytes = 0;
        for (mut stores, change) in accepted() {
            bytes += change.len();
            assert_eq!(stores.plain(&change).number, 0);
        }
        assert_eq!(bytes, BYTES);
    }
}
