//! Through which classes an attribute comes to a class.

use crate::kept::Kept;
use crate::rows::{List, RowId, Schema};
use keeper::Stores;

/// An attribute that a class demands or allows, and whence.
pub struct Coming {
    /// The attribute.
    pub attribute: RowId,
    /// The classes that name it, of those that the class reaches.
    pub through: Vec<usize>,
}

/// The attributes that a class demands, by the set that the keeper keeps.
pub fn demanded(schema: &Schema, stores: &Stores, class: usize) -> Vec<Coming> {
    coming(schema, stores, class, Kept::Demanded, &[List::Mandatory])
}

/// The attributes that a class allows, by the set that the keeper keeps.
pub fn allowed(schema: &Schema, stores: &Stores, class: usize) -> Vec<Coming> {
    let lists = [List::FixedOptional, List::OpenOptional];
    coming(schema, stores, class, Kept::Allowed, &lists)
}

/// The attributes of a kept set, each with the reached classes whose lists have
/// it.
fn coming(
    schema: &Schema,
    stores: &Stores,
    class: usize,
    kept: Kept,
    lists: &[List],
) -> Vec<Coming> {
    let reached = Kept::Reached.of(stores, class);
    let come = |number: u16| {
        let names = |reached: &usize| {
            let row = schema.classes.get(*reached);
            row.is_some_and(|row| lists.iter().any(|list| row.list(*list).contains(&number)))
        };
        let through = reached
            .iter()
            .map(|reached| usize::from(*reached))
            .filter(names)
            .collect();
        Coming {
            attribute: RowId::attribute(number),
            through,
        }
    };
    kept.of(stores, class).into_iter().map(come).collect()
}
