//! What goes with an attributeSyntax: rules 26 and 27 read these lists, and so
//! does the reader where oMObjectClass is absent.

/// The oMSyntax that goes with an oMObjectClass.
pub const OBJECT: u8 = 127;

/// "1:127, 2:6, 3:27, 4:20, 5:19 or 22, 6:18, 7:127, 8:1, 9:2 or 10, 10:4,
/// 11:23 or 24, 12:64, 13:127, 14:127, 15:66, 16:65, 17:4"
pub fn om_syntaxes(syntax: u8) -> &'static [u8] {
    match syntax {
        1 | 7 | 13 | 14 => &[OBJECT],
        2 => &[6],
        3 => &[27],
        4 => &[20],
        5 => &[19, 22],
        6 => &[18],
        8 => &[1],
        9 => &[2, 10],
        10 => &[4],
        11 => &[23, 24],
        12 => &[64],
        15 => &[66],
        16 => &[65],
        17 => &[4],
        _ => &[],
    }
}

/// "1: 2B0C0287731C00854A."
const SYNTAX_1: &[u8] = &[0x2B, 0x0C, 0x02, 0x87, 0x73, 0x1C, 0x00, 0x85, 0x4A];
/// "7: 56060102050B1D or 2A864886F7140101010B."
const SYNTAX_7_FIRST: &[u8] = &[0x56, 0x06, 0x01, 0x02, 0x05, 0x0B, 0x1D];
const SYNTAX_7_SECOND: &[u8] = &[0x2A, 0x86, 0x48, 0x86, 0xF7, 0x14, 0x01, 0x01, 0x01, 0x0B];
/// "13: 2B0C0287731C00855C."
const SYNTAX_13: &[u8] = &[0x2B, 0x0C, 0x02, 0x87, 0x73, 0x1C, 0x00, 0x85, 0x5C];
/// "14: 2B0C0287731C00853E or 2A864886F7140101010C."
const SYNTAX_14_FIRST: &[u8] = &[0x2B, 0x0C, 0x02, 0x87, 0x73, 0x1C, 0x00, 0x85, 0x3E];
const SYNTAX_14_SECOND: &[u8] = &[0x2A, 0x86, 0x48, 0x86, 0xF7, 0x14, 0x01, 0x01, 0x01, 0x0C];

/// The right oMObjectClasses of a syntax with oMSyntax 127, the first the one
/// stored where none is given.
pub fn object_classes(syntax: u8) -> &'static [&'static [u8]] {
    match syntax {
        1 => &[SYNTAX_1],
        7 => &[SYNTAX_7_FIRST, SYNTAX_7_SECOND],
        13 => &[SYNTAX_13],
        14 => &[SYNTAX_14_FIRST, SYNTAX_14_SECOND],
        _ => &[],
    }
}

/// What the reader stores: "Absent, the first is stored. With any other
/// oMSyntax it is read and dropped." With 127 and a syntax that has no list
/// there is no first, and nothing is stored (R16).
pub fn stored_object_class(syntax: u8, om_syntax: u8, read: Option<&[u8]>) -> Vec<u8> {
    if om_syntax != OBJECT {
        return Vec::new();
    }
    match (read, object_classes(syntax).first()) {
        (Some(given), _) => given.to_vec(),
        (None, Some(first)) => first.to_vec(),
        (None, None) => Vec::new(),
    }
}

/// Whether the reader could have stored this oMObjectClass beside these
/// syntaxes (R20).
pub fn could_be_stored(syntax: u8, om_syntax: u8, stored: &[u8]) -> bool {
    if om_syntax != OBJECT {
        stored.is_empty()
    } else {
        !stored.is_empty() || object_classes(syntax).is_empty()
    }
}
