//! Test pieces P1 to P12, through sheets and changes.

use reference::{CLOSURE, Stores};
use replay::examples::rows::{Row, alter, entry, range, rename, sheet};

/// Number, table and place.
type Told = (u64, u64, u64);

const PASS: Told = (0, 0, 0);

/// A load of rows.
fn load(rows: &[Row]) -> Told {
    Stores::default().load(&sheet(rows)).told()
}

/// Stores that rows were loaded into, which must be accepted.
fn loaded(rows: &[Row]) -> Stores {
    let mut stores = Stores::default();
    assert_eq!(stores.load(&sheet(rows)).told(), PASS);
    stores
}

/// A change by both calls, which must agree in answer and bytes.
fn both(stores: &mut Stores, change: &[u8]) -> Told {
    let mut copy = stores.clone();
    let answer = stores.quick(change);
    assert_eq!(copy.plain(change), answer);
    assert!(copy == *stores);
    answer.told()
}

#[test]
fn p1_names() {
    let row = |name: &str| [Row::attribute(0).named(name)];
    assert_eq!(load(&row("area-Ha")), PASS);
    assert_eq!(load(&row("")), (12, 1, 0));
    assert_eq!(load(&row("1area")), (12, 1, 0));
    let mut stores = loaded(&[Row::attribute(0)]);
    let mut named = |name: &[u8]| both(&mut stores, &rename(0x43, 0, name));
    assert_eq!(named(b""), (12, 0, 0));
    assert_eq!(named(b"1area"), (12, 0, 0));
    assert_eq!(named(b"area-Ha"), (0, 1, 0));
}

#[test]
fn p2_identifiers() {
    let row = |arcs: &[u32]| Row::attribute(0).arcs(arcs);
    assert_eq!(load(&[row(&[2, 999])]), PASS);
    assert_eq!(load(&[row(&[1, 40])]), (14, 1, 0));
    assert_eq!(load(&[row(&[2])]), (14, 1, 0));
    let added = |arcs: &[u32]| both(&mut loaded(&[]), &row(arcs).added());
    assert_eq!(added(&[2, 999]), (0, 1, 0));
    assert_eq!(added(&[1, 40]), (14, 0, 0));
}

#[test]
fn p3_syntaxes() {
    assert_eq!(load(&[Row::attribute(0).syntax(9, 10)]), PASS);
    assert_eq!(load(&[Row::attribute(0).syntax(9, 65)]), (26, 1, 0));
}

/// The same range in a sheet, in an addition and in a change 42.
fn ranged(lower: Option<i32>, upper: Option<i32>) -> u64 {
    let ends = [(0x0A, lower), (0x0B, upper)];
    let given = ends.into_iter().filter_map(|(tag, end)| Some((tag, end?)));
    let row = given.fold(Row::attribute(0), |row, (tag, end)| {
        row.with(tag, &end.to_be_bytes())
    });
    let (added, _, _) = both(&mut loaded(&[]), &row.added());
    let mut stores = loaded(&[Row::attribute(0)]);
    let (changed, _, _) = both(&mut stores, &range(0, lower, upper));
    let (loaded, _, _) = load(&[row]);
    assert_eq!((loaded, loaded), (added, changed));
    loaded
}

#[test]
fn p4_ranges() {
    assert_eq!(ranged(Some(-1), Some(0)), 0);
    assert_eq!(ranged(Some(5), Some(5)), 0);
}

/// Document 02, wish 1: "both negative and equal passes too"; signed, and only
/// a greater lower end is refused.
#[test]
fn p4_equal_ends() {
    for end in [16, 0, -1, -3, i32::MIN, i32::MAX] {
        assert_eq!(ranged(Some(end), Some(end)), 0);
    }
    for end in [i32::MIN, -4, -1, 0, 5, i32::MAX - 1] {
        assert_eq!(ranged(Some(end + 1), Some(end)), 25);
        assert_eq!(ranged(Some(end), Some(end + 1)), 0);
    }
}

#[test]
fn p5_ends_of_ranges() {
    assert_eq!(ranged(Some(i32::MIN), Some(i32::MAX)), 0);
    assert_eq!(ranged(Some(i32::MAX), Some(i32::MIN)), 25);
    assert_eq!(ranged(Some(7), None), 0);
    assert_eq!(ranged(None, Some(-7)), 0);
    assert_eq!(ranged(None, None), 0);
}

#[test]
fn p6_links() {
    let link = |number, link| Row::attribute(number).linked(link);
    assert_eq!(load(&[link(0, 1)]), (29, 1, 0));
    assert_eq!(load(&[link(0, 2)]), PASS);
    assert_eq!(load(&[link(0, 2), link(1, 3)]), PASS);
    assert_eq!(load(&[link(0, 3), link(1, 2)]), PASS);
    assert_eq!(load(&[link(0, 2), link(1, 4), link(2, 2)]), (28, 1, 0));
    let mut stores = loaded(&[link(0, 2)]);
    assert_eq!(both(&mut stores, &link(1, 1).added()), (29, 0, 0));
    assert_eq!(both(&mut stores, &link(1, 3).added()), (0, 1, 1));
    assert_eq!(both(&mut stores, &alter(0x45, 0, &[])), (11, 0, 0));
}

#[test]
fn p7_88_class_under_auxiliary() {
    let eighty_eight = Row::class(2).category(0).under(1);
    let rows = [Row::class(0), Row::class(1).category(3), eighty_eight];
    assert_eq!(load(&rows), PASS);
}

#[test]
fn p8_abstract_under_structural() {
    let abstract_one = Row::class(2).category(2).under(1);
    let rows = [Row::class(0), Row::class(1), abstract_one];
    assert_eq!(load(&rows), (38, 2, 2));
    let mut stores = loaded(&rows[..2]);
    assert_eq!(both(&mut stores, &rows[2].added()), (38, 0, 0));
}

#[test]
fn p9_two_auxiliaries_listing_each_other() {
    let one = Row::class(1).category(3).set(0x17, &[2]);
    let other = Row::class(2).category(3).set(0x16, &[1]);
    let stores = loaded(&[Row::class(0), one, other]);
    let closure = &stores.0[CLOSURE];
    assert_eq!(closure[80], 0b111);
    assert_eq!(closure[160], 0b111);
    assert_eq!(closure[81..160], [0; 79]);
    assert_eq!(closure[161..240], [0; 79]);
}

/// Attributes 0 and 1; an auxiliary 3 demanding these, under an auxiliary 1
/// demanding those; a structural class 2 demanding attribute 0.
fn auxiliary_and_target(own: &[u16], inherited: &[u16]) -> Stores {
    let demanding = |row: Row, entries: &[u16]| match entries {
        [] => row,
        _ => row.set(0x13, entries),
    };
    let above = demanding(Row::class(1).category(3), inherited);
    let target = Row::class(2).set(0x13, &[0]);
    let auxiliary = demanding(Row::class(3).category(3).under(1), own);
    let attributes = [Row::attribute(0), Row::attribute(1)];
    let classes = [Row::class(0), above, target, auxiliary];
    loaded(&[&attributes[..], &classes].concat())
}

#[test]
fn p10_auxiliary_demanding_what_the_target_already_demands() {
    let mut stores = auxiliary_and_target(&[0], &[]);
    assert_eq!(both(&mut stores, &entry(0x49, 2, 0x17, 3)), (0, 2, 2));
    assert_eq!(stores.0[CLOSURE][160], 0b1111);
    let mut stores = auxiliary_and_target(&[], &[0]);
    assert_eq!(both(&mut stores, &entry(0x49, 2, 0x17, 3)), (0, 2, 2));
    assert_eq!(both(&mut stores, &entry(0x4A, 2, 0x17, 3)), (0, 2, 2));
}

#[test]
fn p11_the_same_with_one_more() {
    let mut stores = auxiliary_and_target(&[0, 1], &[]);
    assert_eq!(both(&mut stores, &entry(0x49, 2, 0x17, 3)), (30, 0, 0));
    let mut stores = auxiliary_and_target(&[0], &[1]);
    assert_eq!(both(&mut stores, &entry(0x49, 2, 0x17, 3)), (30, 0, 0));
}

/// "taking removals as harmless"
#[test]
fn p11_turned_round_a_removal_that_takes_a_demand_away() {
    let auxiliary = Row::class(1).category(3).set(0x13, &[0]);
    let target = Row::class(2).set(0x17, &[1]);
    let mut stores = loaded(&[Row::attribute(0), Row::class(0), auxiliary, target]);
    assert_eq!(both(&mut stores, &entry(0x4A, 2, 0x17, 1)), (30, 0, 0));
}

#[test]
fn p12_name_changed_only_in_case() {
    let mut stores = loaded(&[Row::attribute(0), Row::class(0)]);
    assert_eq!(both(&mut stores, &rename(0x43, 0, b"A0")), (0, 1, 0));
    assert_eq!(both(&mut stores, &rename(0x44, 0, b"a0")), (13, 0, 0));
    assert_eq!(both(&mut stores, &rename(0x44, 0, b"C0")), (0, 2, 0));
}

/// "forgetting defunct rows in uniqueness"
#[test]
fn defunct_rows_count_as_rivals() {
    let mut stores = loaded(&[Row::attribute(0).defunct(), Row::class(0)]);
    assert_eq!(both(&mut stores, &rename(0x44, 0, b"A0")), (13, 0, 0));
}
