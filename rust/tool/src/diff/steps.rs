//! The differences that changes can make, one step each.

use super::keys::{Key, keys, keys_of};
use crate::changes::{Block, Change};
use crate::refusal::named;
use crate::rows::{List, RowId, Schema, Table};
use crate::text::block;

/// One difference, rows by key, so that it does not matter what they are called
/// when it is made.
#[derive(Clone, Debug, PartialEq, Eq)]
pub enum Step {
    /// A row of the new schema to be added, with or without its open lists.
    Add(Key, bool),
    /// A display name.
    Rename(Key, String),
    /// A range.
    Range(Key, Option<i32>, Option<i32>),
    /// Into use, or out of it.
    State(Key, bool),
    /// An entry of an open list, added or removed.
    Entry(bool, List, Key, Key),
}

/// The lists that changes alter.
pub const OPEN: [List; 3] = [List::OpenOptional, List::OpenAuxiliary, List::OpenSuperior];

/// The steps between two schemas, in an order that mostly works: into use, names,
/// ranges, new rows, lists, out of use.
pub fn steps(old: &Schema, new: &Schema) -> Vec<Step> {
    let all: Vec<Key> = [Table::Attributes, Table::Classes]
        .into_iter()
        .flat_map(|table| keys(new, table))
        .collect();
    let defunct = |schema: &Schema, key: Key| {
        let common = key
            .row(schema)
            .and_then(|row| schema.common(row).map(|common| common.defunct));
        common.unwrap_or(false)
    };
    let mut steps = Vec::new();
    let changed: Vec<Vec<Step>> = all.iter().map(|key| of_row(old, new, *key)).collect();
    for (key, changed) in all.iter().zip(&changed) {
        if defunct(old, *key) && (!defunct(new, *key) || !changed.is_empty()) {
            steps.push(Step::State(*key, true));
        }
    }
    steps.extend(changed.iter().flatten().cloned());
    let added = all.iter().filter(|key| key.row(old).is_none());
    steps.extend(added.map(|key| Step::Add(*key, true)));
    // Classes go out of use before what they name.
    for (key, changed) in all.iter().zip(&changed).rev() {
        if defunct(new, *key) && (!defunct(old, *key) || !changed.is_empty()) {
            steps.push(Step::State(*key, false));
        }
    }
    steps
}

/// What differs in a row of both schemas, but for its being in use.
fn of_row(old: &Schema, new: &Schema, key: Key) -> Vec<Step> {
    let (Some(before), Some(after)) = (key.row(old), key.row(new)) else {
        return Vec::new();
    };
    let mut steps = Vec::new();
    if old.name(before) != new.name(after) {
        steps.push(Step::Rename(key, new.name(after)));
    }
    match key.table {
        Table::Attributes => {
            let (before, after) = (
                &old.attributes[before.number],
                &new.attributes[after.number],
            );
            if (before.lower, before.upper) != (after.lower, after.upper) {
                steps.push(Step::Range(key, after.lower, after.upper));
            }
        }
        Table::Classes => {
            for list in OPEN {
                let (before, after) = (entries(old, before, list), entries(new, after, list));
                let gone = before.iter().filter(|entry| !after.contains(entry));
                steps.extend(gone.map(|entry| Step::Entry(false, list, key, *entry)));
                let come = after.iter().filter(|entry| !before.contains(entry));
                steps.extend(come.map(|entry| Step::Entry(true, list, key, *entry)));
            }
        }
    }
    steps
}

/// The entries of a list, by key.
pub fn entries(schema: &Schema, row: RowId, list: List) -> Vec<Key> {
    let class = schema.classes.get(row.number);
    class.map_or_else(Vec::new, |class| {
        keys_of(schema, list.table(), class.list(list).iter())
    })
}

impl Step {
    /// Whether the step is about a row, or names it as an entry.
    pub fn concerns(&self, row: Key) -> bool {
        match self {
            Step::Add(key, _)
            | Step::Rename(key, _)
            | Step::Range(key, ..)
            | Step::State(key, _) => *key == row,
            Step::Entry(_, _, class, entry) => *class == row || *entry == row,
        }
    }

    /// The step as a change to the schema as it is now, in the names of now; none
    /// where a row that it needs is not there yet.
    pub fn change(&self, now: &Schema, new: &Schema) -> Option<Change> {
        match self {
            Step::Add(key, with_lists) => added(now, new, *key, *with_lists),
            Step::Rename(key, to) => {
                let (name, to) = (key.name(now)?, to.clone());
                Some(Change::Rename {
                    table: key.table,
                    name,
                    to,
                })
            }
            Step::Range(key, lower, upper) => Some(Change::Range {
                name: key.name(now)?,
                lower: *lower,
                upper: *upper,
            }),
            Step::State(key, active) => Some(Change::State {
                active: *active,
                table: key.table,
                name: key.name(now)?,
            }),
            Step::Entry(add, list, class, entry) => {
                let (class, entry) = (class.name(now)?, entry.name(now)?);
                Some(Change::Entry {
                    add: *add,
                    list: *list,
                    class,
                    entry,
                })
            }
        }
    }
}

/// A row of the new schema as an addition: active, for only then can it be added.
fn added(now: &Schema, new: &Schema, key: Key, with_lists: bool) -> Option<Change> {
    let row = key.row(new)?;
    let mut schema = in_names_of(now, new);
    schema.common_mut(row)?.defunct = false;
    if let Some(class) = schema
        .classes
        .get_mut(row.number)
        .filter(|_| key.table == Table::Classes && !with_lists)
    {
        OPEN.iter().for_each(|list| class.list_mut(*list).clear());
    }
    let class = schema.classes.get(row.number);
    let class = class.filter(|_| key.table == Table::Classes);
    let is_there = |(named, _): &(RowId, String)| {
        let key = Key::of(new, *named);
        *named == row || key.is_some_and(|key| key.row(now).is_some())
    };
    let all_there = class.map(named).unwrap_or_default().iter().all(is_there);
    all_there.then(|| Change::Add {
        table: key.table,
        block: Block::of(&block(&schema, row)),
    })
}

/// The new schema, its rows under the names that they have now, where they are
/// there: a name of the new schema may be another row's until that is renamed.
fn in_names_of(now: &Schema, new: &Schema) -> Schema {
    let mut schema = new.clone();
    for row in new.rows() {
        let held = Key::of(new, row).and_then(|key| now.common(key.row(now)?));
        if let (Some(held), Some(common)) = (held, schema.common_mut(row)) {
            common.name.clone_from(&held.name);
        }
    }
    schema
}
