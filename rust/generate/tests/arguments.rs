//! A command's numbers are taken whole or not at all.

use generate::arguments::numbers;

fn said(words: &[&str]) -> Option<[u64; 2]> {
    numbers(words.iter().map(|word| word.to_string()), [1, 500])
}

#[test]
fn what_is_left_out_is_as_it_was_given() {
    assert_eq!(said(&[]), Some([1, 500]));
    assert_eq!(said(&["7"]), Some([7, 500]));
    assert_eq!(said(&["7", "0"]), Some([7, 0]));
}

#[test]
fn what_is_no_number_or_too_much_is_refused() {
    assert_eq!(said(&["x"]), None);
    assert_eq!(said(&["7", ""]), None);
    assert_eq!(said(&["7", "-1"]), None);
    assert_eq!(said(&["7", "8", "9"]), None);
}
