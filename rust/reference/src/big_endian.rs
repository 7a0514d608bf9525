//! "numbers most significant byte first"

/// The number in at most 16 bytes.
pub fn number(bytes: &[u8]) -> u128 {
    bytes
        .iter()
        .fold(0, |number, byte| number << 8 | u128::from(*byte))
}

/// The arcs, "4 bytes each".
pub fn arcs(bytes: &[u8]) -> Vec<u32> {
    bytes
        .chunks_exact(4)
        .map(|arc| number(arc) as u32)
        .collect()
}

/// The entries of a set, "two bytes an entry".
pub fn entries(bytes: &[u8]) -> Vec<u16> {
    bytes
        .chunks_exact(2)
        .map(|entry| number(entry) as u16)
        .collect()
}
