//! A script as it is made, each step with the answer that documents 01 and 02
//! give.

use super::rows::{Row, sheet};
use crate::player::Player;
use crate::step::Step;

/// Number, table and place.
pub type Given = (u64, u64, u64);

/// Nothing named.
pub const PASSED: Given = (0, 0, 0);

/// The steps so far, and where the reference gave another answer.
#[derive(Default)]
pub struct Record {
    player: Player,
    script: Vec<u8>,
    faults: Vec<String>,
}

impl Record {
    /// The script's bytes, or what the reference answers otherwise.
    pub fn finish(self) -> Result<Vec<u8>, String> {
        match self.faults.is_empty() {
            true => Ok(self.script),
            false => Err(self.faults.join("\n")),
        }
    }

    /// A step and its answer.
    pub fn step(&mut self, step: Step, given: Given) {
        let told = self.player.advance(&step).told();
        if told != given {
            let name = step.name();
            let fault = format!("{name}: {given:?} by the paper, not {told:?}: {step:02X?}");
            self.faults.push(fault);
        }
        self.script.extend(step.bytes());
    }

    /// A load of these bytes.
    pub fn load(&mut self, sheet: &[u8], given: Given) {
        self.step(Step::Load(sheet.to_vec()), given);
    }

    /// A load of these rows, which breaks a rule or passes.
    pub fn rows(&mut self, rows: &[Row], given: Given) {
        self.load(&sheet(rows), given);
    }

    /// A load of these rows, which passes.
    pub fn pass(&mut self, rows: &[Row]) {
        self.rows(rows, PASSED);
    }

    /// The same rows with this one active and with it defunct break a rule.
    pub fn both(&mut self, rows: &[Row], row: usize, given: Given) {
        self.rows(rows, given);
        let mut rows = rows.to_vec();
        rows[row] = rows[row].clone().defunct();
        self.rows(&rows, given);
    }

    /// A plain change that is refused, or unreadable at a place.
    pub fn plain(&mut self, change: &[u8], given: Given) {
        self.step(Step::Plain(change.to_vec()), given);
    }

    /// A plain change that is refused by its number alone.
    pub fn refused(&mut self, change: &[u8], number: u64) {
        self.plain(change, (number, 0, 0));
    }

    /// A quick change.
    pub fn quick(&mut self, change: &[u8], given: Given) {
        self.step(Step::Quick(change.to_vec()), given);
    }

    /// An audit.
    pub fn audit(&mut self, given: Given) {
        self.step(Step::Audit, given);
    }

    /// A write into an output of this length.
    pub fn write(&mut self, length: u32, given: Given) {
        self.step(Step::Write(length), given);
    }

    /// A depth.
    pub fn depth(&mut self, class: u16, given: Given) {
        self.step(Step::Depth(class), given);
    }

    /// A byte of a store is poked, and the one that stood there given back.
    pub fn poke(&mut self, store: u8, offset: usize, byte: u8) -> u8 {
        let stores = self.player.stores();
        let old = stores.0[usize::from(store)].get(offset).copied();
        let offset = offset as u32;
        self.step(
            Step::Poke {
                store,
                offset,
                byte,
            },
            PASSED,
        );
        old.unwrap_or_default()
    }

    /// The last step left this byte there; the script does not show it.
    pub fn holds(&mut self, store: usize, offset: usize, byte: u8) {
        let held = self.player.stores().0[store].get(offset).copied();
        if held != Some(byte) {
            let fault =
                format!("store {store} at {offset}: {byte:02X} by the paper, not {held:02X?}");
            self.faults.push(fault);
        }
    }

    /// A store is cut or lengthened.
    pub fn resize(&mut self, store: u8, length: u32) {
        self.step(Step::Resize { store, length }, PASSED);
    }
}
