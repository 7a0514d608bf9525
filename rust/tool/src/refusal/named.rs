//! What a class names, and by what.

use crate::rows::{Class, List, RowId};

/// All rows that a class names, each with the way in which it does.
pub fn named(class: &Class) -> Vec<(RowId, String)> {
    let mut rows = vec![(RowId::class(class.superclass), "as superclass".to_owned())];
    if let Some(naming) = class.naming {
        rows.push((RowId::attribute(naming), "as naming attribute".to_owned()));
    }
    for list in List::ALL {
        let row = |number: &u16| RowId {
            table: list.table(),
            number: usize::from(*number),
        };
        let entries = class.list(list).iter().map(row);
        rows.extend(entries.map(|row| (row, format!("in its {}", list.title()))));
    }
    rows
}
