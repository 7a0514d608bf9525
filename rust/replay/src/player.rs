//! The reference playing a script.

use crate::hash::fnv1a;
use crate::step::Step;
use reference::{Answer, PAST, Stores};

/// Plays steps on its stores.
#[derive(Clone, Debug, Default)]
pub struct Player {
    stores: Stores,
}

impl Player {
    /// The stores as the last step left them.
    pub fn stores(&self) -> &Stores {
        &self.stores
    }

    /// Plays a step; gives its line, without the line feed: "name, number,
    /// table, place (poke, resize: 0 0 0), then an FNV-1a 64 hash of all bytes
    /// of each store in 16 hex digits; write adds the hash of the whole output
    /// lent, whose bytes start as A5".
    pub fn play(&mut self, step: &Step) -> String {
        let mut out = match step {
            Step::Write(length) => Some(vec![PAST; *length as usize]),
            _ => None,
        };
        let answer = self.answer(step, out.as_deref_mut().unwrap_or_default());
        let mut line = format!(
            "{} {} {} {}",
            step.name(),
            answer.number,
            answer.table,
            answer.place
        );
        for bytes in self.stores.0.iter().chain(&out) {
            line += &format!(" {:016x}", fnv1a(bytes));
        }
        line
    }

    /// Plays a step without a line.
    pub fn advance(&mut self, step: &Step) -> Answer {
        let mut out = match step {
            Step::Write(length) => vec![PAST; *length as usize],
            _ => Vec::new(),
        };
        self.answer(step, &mut out)
    }

    fn answer(&mut self, step: &Step, out: &mut [u8]) -> Answer {
        match step {
            Step::Load(sheet) => self.stores.load(sheet),
            Step::Plain(change) => self.stores.plain(change),
            Step::Quick(change) => self.stores.quick(change),
            Step::Audit => self.stores.audit(),
            Step::Write(_) => self.stores.write(out),
            Step::Depth(class) => self.stores.depth(*class),
            Step::Poke {
                store,
                offset,
                byte,
            } => {
                let bytes = &mut self.stores.0[usize::from(*store)];
                if let Some(poked) = bytes.get_mut(*offset as usize) {
                    *poked = *byte;
                }
                Answer::bare(0)
            }
            Step::Resize { store, length } => {
                self.stores.0[usize::from(*store)].resize(*length as usize, PAST);
                Answer::bare(0)
            }
        }
    }
}
