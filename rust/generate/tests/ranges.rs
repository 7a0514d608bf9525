//! "shipped schemas have equal ends" (document 02, wish 1): schemas that a load
//! accepts have them often.

use generate::{Random, schemas};

#[test]
fn sound_schemas_have_equal_ends_often() {
    let mut random = Random::for_test(22);
    let (mut equal, mut negative, mut least, mut all) = (0, 0, 0, 0);
    for _ in 0..100 {
        for row in schemas::any(&mut random).attributes {
            all += 1;
            if let (Some(lower), Some(upper)) = (row.range_lower, row.range_upper) {
                assert!(lower <= upper);
                equal += u32::from(lower == upper);
                negative += u32::from(lower == upper && lower < 0);
                least += u32::from(lower == upper && lower == i32::MIN);
            }
        }
    }
    println!("{all} attributes, {equal} with equal ends");
    assert!(equal * 8 > all && negative * 25 > all && least > 20);
}
