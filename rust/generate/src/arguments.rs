//! The numbers after a command, each of which may be left out from the end.

/// The numbers that the words say, and the given ones where words are missing;
/// nothing where a word is not a number or one too many.
pub fn numbers<const N: usize>(
    words: impl IntoIterator<Item = String>,
    otherwise: [u64; N],
) -> Option<[u64; N]> {
    let mut numbers = otherwise;
    let mut places = numbers.iter_mut();
    for word in words {
        *places.next()? = word.parse().ok()?;
    }
    Some(numbers)
}
