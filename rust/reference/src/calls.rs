//! The calls, over the lent stores.

use crate::answer::Answer;
use crate::closure;
use crate::layout::{self, Tables};
use crate::order;
use crate::plain;
use crate::quick;
use crate::reading::{self, SheetRefusal};
use crate::rules::Judged;
use crate::schema::{Row, Schema};
use crate::stores::Stores;
use crate::writing;

impl Stores {
    /// "*Load* a sheet into the stores." "Load never looks at what stood in the
    /// stores"; "refused by 4 or more, it leaves every store byte zero".
    pub fn load(&mut self, sheet: &[u8]) -> Answer {
        if self.is_short() {
            return Answer::bare(1);
        }
        match loaded(sheet) {
            Ok(tables) => {
                layout::encode(&tables, self);
                Answer::bare(0)
            }
            Err(refusal) => {
                self.fronts_mut().for_each(|store| store.fill(0));
                refusal
            }
        }
    }

    /// "*Write* them as a sheet": "for a write 0 and the length"; "31 write:
    /// output too short; place is the length needed".
    pub fn write(&self, out: &mut [u8]) -> Answer {
        let tables = match self.tables() {
            Ok(tables) => tables,
            Err(refusal) => return refusal,
        };
        let sheet = writing::sheet(&tables.schema);
        let needed = sheet.len();
        match out.get_mut(..needed) {
            Some(written) => {
                written.copy_from_slice(&sheet);
                Answer::at(0, needed)
            }
            None => Answer::at(31, needed),
        }
    }

    /// "*Audit*: are the stores in order?"
    pub fn audit(&self) -> Answer {
        match self.tables() {
            Ok(tables) => order::verdict(&tables),
            Err(refusal) => refusal,
        }
    }

    /// "*Plain change* (the whole check): audit, apply, judge the whole result."
    pub fn plain(&mut self, change: &[u8]) -> Answer {
        let before = self.tables();
        self.finish(before.and_then(|before| plain::plain(&before, change)))
    }

    /// "*Quick change*: the same, but of the audit only shape."
    pub fn quick(&mut self, change: &[u8]) -> Answer {
        let before = self.tables();
        self.finish(before.and_then(|before| quick::quick(&before, change)))
    }

    /// "0 done; table and row changed or added"; "Refused changes ... alter
    /// nothing."
    fn finish(&mut self, outcome: Result<(Tables, Row), Answer>) -> Answer {
        match outcome {
            Ok((after, row)) => {
                layout::encode(&after, self);
                Answer::on(0, row)
            }
            Err(refusal) => refusal,
        }
    }

    /// "The chain of superclasses from a class up to row 0 is counted by a *depth*
    /// call: the place is the number of steps, 0 for row 0. Refusals: 1, 2, 5, and
    /// 18 where a superclass met is not earlier."
    pub fn depth(&self, class: u16) -> Answer {
        match self.tables() {
            Ok(tables) => steps(&tables.schema, class),
            Err(refusal) => refusal,
        }
    }
}

/// The tables a sheet gives, or the refusal: "it reads left to right and gives
/// 4 or 6, whichever comes first, then judges 12 to 29".
pub fn loaded(sheet: &[u8]) -> Result<Tables, Answer> {
    let schema = reading::sheet(sheet).map_err(sheet_refused)?;
    if let Some((rule, row)) = Judged::standing(&schema).first_broken() {
        return Err(Answer::on(rule, row));
    }
    let kept = closure::afresh(&schema);
    Ok(Tables { schema, kept })
}

fn sheet_refused(refusal: SheetRefusal) -> Answer {
    match refusal {
        SheetRefusal::Unreadable(four) => Answer::at(4, four.place),
        SheetRefusal::NoFreeRow { table, limit } => Answer {
            number: 6,
            table,
            place: limit as u64,
        },
    }
}

fn steps(schema: &Schema, class: u16) -> Answer {
    let mut met = class;
    let mut steps = 0;
    loop {
        let Some(row) = schema.class(met) else {
            return Answer::bare(5);
        };
        if met == 0 {
            return Answer::at(0, steps);
        }
        if row.superclass >= met {
            return Answer::bare(18);
        }
        met = row.superclass;
        steps += 1;
    }
}
