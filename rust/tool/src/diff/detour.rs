//! Ways round, where the keeper accepts no step any more.

use super::keys::Key;
use super::play::Play;
use super::steps::{OPEN, Step, entries};
use crate::failure::Failure;
use crate::rows::{Schema, Table};

impl Play<'_> {
    /// A way round, where nothing is accepted any more; whether there was one.
    pub fn detour(&mut self, open: &mut Vec<Step>) -> Result<bool, Failure> {
        for at in 0..open.len() {
            let waits = self.waits(&open[at], &open[..at]);
            let has_way = match open[at].clone() {
                Step::Add(key, true) if key.table == Table::Classes && !waits => {
                    open[at] = Step::Add(key, false);
                    // Before it goes out of use, if it does.
                    let _ = open.splice(at + 1..at + 1, self.list_steps(key));
                    true
                }
                Step::Add(key, _) if !waits => self.out_of_order.insert(key.table),
                Step::Rename(key, _) => self.is_wanted(key, open) && self.gives_up(key)?,
                _ => false,
            };
            if has_way {
                return Ok(true);
            }
        }
        Ok(false)
    }

    /// The entries of a new class's open lists, one by one.
    fn list_steps(&self, key: Key) -> Vec<Step> {
        let row = key.row(self.new);
        let lists = row.into_iter().flat_map(|row| OPEN.map(|list| (row, list)));
        let steps = lists.flat_map(|(row, list)| {
            let entries = entries(self.new, row, list).into_iter();
            entries.map(move |entry| Step::Entry(true, list, key, entry))
        });
        steps.collect()
    }

    /// Whether another row is to get the name that a row has, which may give it up.
    fn is_wanted(&self, key: Key, open: &[Step]) -> bool {
        let name = key.name(&self.now).unwrap_or_default();
        let wants = |step: &Step| match step {
            Step::Rename(other, to) => *other != key && to.eq_ignore_ascii_case(&name),
            _ => false,
        };
        let may = !self.keeping.contains(&key) && !self.gave_up.contains(&key);
        may && open.iter().any(wants)
    }

    /// Gives a row a name for a moment that no row has or is to have; whether the
    /// keeper accepts it.
    fn gives_up(&mut self, key: Key) -> Result<bool, Failure> {
        let is_free = |name: &String| {
            let tables = [Table::Attributes, Table::Classes];
            let has = |schema: &Schema| tables.map(|table| schema.find(table, name).is_some());
            ![has(&self.now), has(self.new)].concat().contains(&true)
        };
        let name = (1..).map(|number| format!("keeper-{number}")).find(is_free);
        let step = name.map(|name| Step::Rename(key, name));
        let change = step.and_then(|step| step.change(&self.now, self.new));
        let is_made = match change {
            Some(change) => self.made(change)?,
            None => false,
        };
        if is_made {
            self.gave_up.insert(key);
        }
        Ok(is_made)
    }
}
