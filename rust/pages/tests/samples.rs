//! The samples of the repository: sheets and listings. Texts are held by the
//! tests of `tool`.

use reference::{LISTED_LIMIT, Stores, listing, reading};
use std::collections::BTreeMap;
use std::fs;
use std::path::PathBuf;

fn sample(name: &str) -> Vec<u8> {
    let samples = concat!(env!("CARGO_MANIFEST_DIR"), "/../../samples/");
    fs::read(samples.to_owned() + name).unwrap_or_default()
}

/// The gate takes no links, so that the samples stand twice: here and where the
/// gate lists them.
#[test]
fn the_samples_are_what_the_gate_lists() {
    let top = concat!(env!("CARGO_MANIFEST_DIR"), "/../..");
    let files = |folder: &str| {
        let entries = fs::read_dir(format!("{top}/{folder}"))
            .into_iter()
            .flatten();
        let paths = entries.filter_map(|entry| Some(entry.ok()?.path()));
        let file = |path: PathBuf| Some((path.file_name()?.to_owned(), fs::read(path).ok()?));
        paths.filter_map(file).collect::<BTreeMap<_, _>>()
    };
    let [samples, listed] = ["samples", "crates/list_samples/data"].map(files);
    assert!(!samples.is_empty());
    assert!(samples.keys().eq(listed.keys()));
    for (name, bytes) in samples {
        assert!(listed[&name] == bytes, "{}", name.display());
    }
}

#[test]
fn the_listings_are_current() {
    for name in ["forest", "refused"] {
        let sheet = sample(&format!("{name}.sheet"));
        assert!(sheet.len() <= LISTED_LIMIT);
        let [listed, kept] = [listing(&sheet), sample(&format!("{name}.txt"))];
        assert_eq!(
            String::from_utf8_lossy(&listed),
            String::from_utf8_lossy(&kept)
        );
    }
    assert_eq!(sample("refused.txt"), b"refused 13 1 1\n");
}

/// The sheet that is too long has no text: it is one byte more than is listed,
/// all of them zero.
#[test]
fn the_long_sheet_is_one_byte_too_long_and_all_zero() {
    let sheet = sample("long.sheet");
    assert_eq!(sheet.len(), LISTED_LIMIT + 1);
    assert!(sheet.iter().all(|byte| *byte == 0));
    assert_eq!(listing(&sheet), b"too long\n");
}

#[test]
fn the_forest_is_accepted_and_comes_back_byte_for_byte() {
    let sheet = sample("forest.sheet");
    let mut stores = Stores::default();
    assert_eq!(stores.load(&sheet).told(), (0, 0, 0));
    assert_eq!(stores.audit().number, 0);
    let mut out = vec![0; LISTED_LIMIT];
    assert_eq!(stores.write(&mut out).told(), (0, 0, sheet.len() as u64));
    assert!(out[..sheet.len()] == sheet);
}

/// What the sample is to show: base rows, defunct rows in both tables, links,
/// ranges, a fixed length, auxiliaries that bring each other.
#[test]
fn the_forest_shows_every_kind_of_row() {
    let forest = reading::sheet(&sample("forest.sheet")).unwrap_or_default();
    let attributes = &forest.attributes;
    let classes = &forest.classes;
    assert!(attributes.iter().any(|row| row.common.is_base()));
    assert!(classes.iter().any(|row| row.common.is_base()));
    assert!(attributes.iter().any(|row| row.common.defunct));
    assert!(classes.iter().any(|row| row.common.defunct));
    let is_back = |link: u32| link % 2 == 1;
    assert!(
        attributes
            .iter()
            .any(|row| row.link_id.is_some_and(is_back))
    );
    let ranges = || {
        attributes
            .iter()
            .map(|row| (row.range_lower, row.range_upper))
    };
    assert!(ranges().any(|(lower, _)| lower.is_some_and(|end| end < 0)));
    assert!(ranges().any(|ends| ends == (Some(16), Some(16))));
    let brings = |one: u16, other: u16| {
        let class = forest.class(one);
        class.is_some_and(|class| class.auxiliaries().any(|brought| brought == other))
    };
    let all = 0..forest.next_class();
    let looped = |one: u16| {
        all.clone()
            .any(|other| one != other && brings(one, other) && brings(other, one))
    };
    assert!(all.clone().any(looped));
}
