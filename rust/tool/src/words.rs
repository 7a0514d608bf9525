//! Values as words.

/// Bytes of a name as they can be shown on a terminal: letters as they are, any
/// other byte that is not printable ASCII in hex.
pub fn shown(name: &[u8]) -> String {
    let letter = |byte: &u8| match byte {
        0x20..=0x7E => char::from(*byte).to_string(),
        _ => format!("\\x{byte:02X}"),
    };
    name.iter().map(letter).collect()
}

/// Words as they can be shown on a terminal: what would steer it is written out.
pub fn printable(words: &str) -> String {
    let letter = |letter: char| match letter {
        '\n' => letter.to_string(),
        _ if letter.is_control() => letter.escape_default().to_string(),
        _ => letter.to_string(),
    };
    words.chars().map(letter).collect()
}

/// An object identifier as people write it.
pub fn dotted(arcs: &[u32]) -> String {
    let arcs: Vec<_> = arcs.iter().map(u32::to_string).collect();
    arcs.join(".")
}

/// Bytes in hex digits.
pub fn hex(bytes: &[u8]) -> String {
    bytes.iter().map(|byte| format!("{byte:02x}")).collect()
}

/// A GUID in hex digits, its bytes in their order. Directories show a GUID with
/// hyphens and three of its parts turned round: so there are no hyphens here.
pub fn guid_text(guid: &[u8; 16]) -> String {
    hex(guid)
}

/// Words joined as in a sentence: a, b and c.
pub fn joined(words: &[String]) -> String {
    match words {
        [] => String::new(),
        [one] => one.clone(),
        [first @ .., last] => format!("{} and {last}", first.join(", ")),
    }
}
