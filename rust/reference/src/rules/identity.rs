//! Rules 12 to 16: name, identifier and GUID, which every row has.

use crate::schema::{Common, Row, Schema};

/// Whether a row breaks one of these rules.
pub fn breaks(schema: &Schema, rule: u64, row: Row) -> bool {
    let Some(own) = schema.common(row) else {
        return false;
    };
    match rule {
        12 => name_invalid(&own.name),
        13 => any_rival(schema, row, |rival| {
            rival.name.eq_ignore_ascii_case(&own.name)
        }),
        14 => identifier_invalid(&own.arcs),
        15 => any_rival(schema, row, |rival| rival.arcs == own.arcs),
        16 => any_rival(schema, row, |rival| rival.guid == own.guid),
        _ => false,
    }
}

/// "12 Name invalid: not a letter, then letters, digits or hyphens (ASCII)."
fn name_invalid(name: &[u8]) -> bool {
    let follows = |byte: &u8| byte.is_ascii_alphanumeric() || *byte == b'-';
    match name {
        [first, rest @ ..] => !(first.is_ascii_alphabetic() && rest.iter().all(follows)),
        [] => true,
    }
}

/// "13 Name taken, in either table, A to Z equal to a to z. A row is not its
/// own rival; defunct rows count (house), here and below." "15 Identifier
/// taken, 16 GUID taken, in either table."
fn any_rival(schema: &Schema, row: Row, taken_by: impl Fn(&Common) -> bool) -> bool {
    let rivals = schema.rows().filter(|rival| *rival != row);
    rivals
        .filter_map(|rival| schema.common(rival))
        .any(taken_by)
}

/// "14 Identifier: fewer than 2 arcs; first over 2; second over 39 where the
/// first is 0 or 1."
fn identifier_invalid(arcs: &[u32]) -> bool {
    match arcs {
        [] | [_] => true,
        [0 | 1, second, ..] => *second > 39,
        [first, ..] => *first > 2,
    }
}
