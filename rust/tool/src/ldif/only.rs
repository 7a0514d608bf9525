//! Which rows of a large schema some names need.

use super::drafts::{Drafts, Reference};
use super::import::Index;
use crate::rows::{RowId, Table};
use std::collections::BTreeSet;

/// The rows with these names and all that they need: superclasses, auxiliary
/// classes, attributes, and the forward link of a back link. Possible superiors
/// are not needed: those that are not taken are left out of the lists.
pub fn needed(drafts: &Drafts, index: &Index, names: &[String]) -> Result<BTreeSet<RowId>, String> {
    let mut taken = BTreeSet::new();
    let mut open = Vec::new();
    for name in names {
        let row = index
            .find(Table::Classes, name)
            .or_else(|| index.find(Table::Attributes, name));
        open.push(row.ok_or_else(|| format!("--only {name}: no entry has this name"))?);
    }
    while let Some(row) = open.pop() {
        if taken.insert(row) {
            open.extend(needs(drafts, index, row));
        }
    }
    Ok(taken)
}

/// The rows that a row needs and that are there; what is not is told when rows
/// are numbered.
fn needs(drafts: &Drafts, index: &Index, row: RowId) -> Vec<RowId> {
    match row.table {
        Table::Attributes => {
            let link = drafts.attributes[row.number].row.link;
            let forward = link.filter(|link| link % 2 == 1).map(|link| link - 1);
            let found = forward.and_then(|forward| {
                drafts
                    .attributes
                    .iter()
                    .position(|draft| draft.row.link == Some(forward))
            });
            found.map(RowId::attribute).into_iter().collect()
        }
        Table::Classes => {
            let draft = &drafts.classes[row.number];
            let find = |table, reference: &Reference| index.find(table, &reference.name);
            let lists = draft
                .lists
                .iter()
                .filter(|(list, _)| !is_superior(list.tag()));
            let entries = lists.filter_map(|(list, reference)| find(list.table(), reference));
            let naming = draft
                .naming
                .iter()
                .filter_map(|naming| find(Table::Attributes, naming));
            let superclass = draft
                .superclass
                .iter()
                .filter_map(|above| find(Table::Classes, above));
            entries.chain(naming).chain(superclass).collect()
        }
    }
}

/// Whether a list's tag is one of possible superiors.
pub fn is_superior(tag: u8) -> bool {
    matches!(tag, 0x18 | 0x19)
}
