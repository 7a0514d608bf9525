//! Steps played on the old schema by the keeper itself: what it accepts is a
//! change that can be made.

use super::fixed::fixed;
use super::keys::Key;
use super::steps::{Step, steps};
use crate::changes::{Change, bytes};
use crate::failure::Failure;
use crate::numbers;
use crate::opened::held;
use crate::rows::{Schema, Table};
use keeper::Stores;
use std::collections::BTreeSet;

/// What leads from one schema to the other.
pub struct Played {
    /// Changes that the keeper makes in this order.
    pub changes: Vec<Change>,
    /// What they leave different, in words.
    pub left: Vec<String>,
}

/// Plays what differs between two accepted schemas on the stores of the old one.
/// Steps that are refused are tried again after others; where none is accepted
/// any more, names are given up for a moment and added classes go without their
/// open lists, which then follow one by one; rows are added in their order as long
/// as that can be. A row that gave up its name in vain keeps it: all is played again
/// without that. What the played schema has different is told.
pub fn played(old: &Schema, stores: &Stores, new: &Schema) -> Result<Played, Failure> {
    let mut keeping = BTreeSet::new();
    loop {
        let mut play = Play {
            stores: stores.clone(),
            now: old.clone(),
            new,
            changes: Vec::new(),
            keeping: &keeping,
            gave_up: BTreeSet::new(),
            out_of_order: BTreeSet::new(),
        };
        let open = play.all(steps(old, new))?;
        let in_vain = play.in_vain(&open);
        if in_vain.is_empty() {
            let mut left = fixed(&play.now, new);
            left.extend(open.iter().map(|step| play.refusal(step)));
            let changes = play.changes;
            return Ok(Played { changes, left });
        }
        keeping.extend(in_vain);
    }
}

/// The old schema on its way to the new one.
pub struct Play<'a> {
    stores: Stores,
    /// The schema as it is now.
    pub now: Schema,
    /// The schema that it is to be.
    pub new: &'a Schema,
    changes: Vec<Change>,
    /// The rows that do not give up their names.
    pub keeping: &'a BTreeSet<Key>,
    /// The rows that gave up their names for a moment, once each.
    pub gave_up: BTreeSet<Key>,
    /// The tables whose new rows cannot all be added in their order.
    pub out_of_order: BTreeSet<Table>,
}

impl Play<'_> {
    /// Plays steps until none is accepted any more and no way leads round; those
    /// that were not accepted.
    fn all(&mut self, mut open: Vec<Step>) -> Result<Vec<Step>, Failure> {
        loop {
            let count = open.len();
            open = self.pass(open)?;
            let is_stuck = open.len() == count;
            if open.is_empty() || (is_stuck && !self.detour(&mut open)?) {
                return Ok(open);
            }
        }
    }

    /// The rows that gave up their names and did not get the new ones.
    fn in_vain(&self, open: &[Step]) -> Vec<Key> {
        let nameless = open.iter().filter_map(|step| match step {
            Step::Rename(key, _) => Some(*key).filter(|key| self.gave_up.contains(key)),
            _ => None,
        });
        nameless.collect()
    }

    /// Tries each step once; those that were not accepted.
    fn pass(&mut self, steps: Vec<Step>) -> Result<Vec<Step>, Failure> {
        let mut open: Vec<Step> = Vec::new();
        for step in steps {
            let waits = self.waits(&step, &open);
            let change = step.change(&self.now, self.new).filter(|_| !waits);
            let made = match change {
                Some(change) => self.made(change)?,
                None => false,
            };
            if !made {
                open.push(step);
            }
        }
        Ok(open)
    }

    /// Whether a step waits for those that are open before it: a row goes out of
    /// use only when nothing else is to be done with it, and is added only behind
    /// those before it.
    pub fn waits(&self, step: &Step, open: &[Step]) -> bool {
        let adds = |step: &Step, table: Table| match step {
            Step::Add(key, _) => key.table == table,
            _ => false,
        };
        match step {
            Step::State(key, false) => open.iter().any(|step| step.concerns(*key)),
            Step::Add(Key { table, .. }, _) if !self.out_of_order.contains(table) => {
                open.iter().any(|step| adds(step, *table))
            }
            _ => false,
        }
    }

    /// Makes a change, if the keeper accepts it.
    pub fn made(&mut self, change: Change) -> Result<bool, Failure> {
        let Ok(bytes) = bytes(&change, &self.now) else {
            return Ok(false);
        };
        if self.stores.quick_change(&bytes).number != keeper::DONE {
            return Ok(false);
        }
        self.now = held(&self.stores)?;
        self.changes.push(change);
        Ok(true)
    }

    /// Why a step cannot be made.
    fn refusal(&self, step: &Step) -> String {
        let Some(change) = step.change(&self.now, self.new) else {
            let wanted = step.change(self.new, self.new);
            let words = wanted.map(|change| change.words()).unwrap_or_default();
            return format!("{words}: a row that it names cannot be added");
        };
        let words = change.words();
        match bytes(&change, &self.now) {
            Err(fault) => format!("{words}: {fault}"),
            Ok(bytes) => {
                let answer = self.stores.clone().quick_change(&bytes);
                format!("{words}: {}", numbers::named(answer.number))
            }
        }
    }
}
