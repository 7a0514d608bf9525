//! Changes made to a schema one after the other, and the file saved.

use super::Io;
use crate::changes::{Change, bytes};
use crate::failure::Failure;
use crate::input::{Form, Given};
use crate::opened::{Opened, held, sheet_of, unwritten};
use crate::refusal::{asked, headline};
use crate::rows::Schema;
use crate::save::Locked;
use crate::text::patched;
use crate::words::printable;
use keeper::Stores;
use std::collections::BTreeSet;

/// Why a change was not made, in a line.
enum Refusal {
    /// The keeper refused it with this number.
    Refused(u64, String),
    /// It cannot be asked of the keeper at all.
    Unusable(String),
}

/// A schema while changes are made to it.
pub struct Session {
    given: Given,
    before: Schema,
    stores: Stores,
    schema: Schema,
    whole: bool,
}

/// How many changes were made and refused.
#[derive(Default)]
pub struct Tally {
    made: usize,
    refused: usize,
    /// The numbers that refused.
    numbers: BTreeSet<u64>,
    /// Whether something could not be asked of the keeper.
    unusable: bool,
    /// Whether what was made counts where something was refused.
    each: bool,
}

impl Tally {
    /// Whether there is something to save.
    fn counts(&self) -> bool {
        self.made > 0 && (self.refused == 0 || self.each)
    }

    /// Counts a change that was not made and gives the line that says so.
    fn refuse(&mut self, refusal: Refusal) -> String {
        self.refused += 1;
        match refusal {
            Refusal::Refused(number, line) => {
                self.numbers.insert(number);
                format!("refused {line}\n")
            }
            Refusal::Unusable(line) => {
                self.unusable = true;
                format!("cannot be used: {line}\n")
            }
        }
    }

    /// What was refused as a failure, with where more can be read about it.
    fn failure(&self) -> Failure {
        let explain = |number: &u64| format!("keeper explain {number} says what can be done\n");
        let advice: String = self.numbers.iter().map(explain).collect();
        match self.unusable {
            true => Failure::Unusable(advice + "keeper change --help says how a change is written"),
            false => Failure::Refused(advice),
        }
    }
}

impl Session {
    /// An accepted schema, not changed yet.
    pub fn new(opened: Opened, whole: bool) -> Session {
        let Opened {
            given,
            stores,
            schema,
        } = opened;
        Session {
            given,
            before: schema.clone(),
            stores,
            schema,
            whole,
        }
    }

    /// Makes the changes, each answered in a line. At the first that is refused
    /// this stops, unless each counts for itself.
    pub fn make(&mut self, changes: &[Change], each: bool, io: &mut Io) -> Result<Tally, Failure> {
        let mut tally = Tally {
            each,
            ..Tally::default()
        };
        for change in changes {
            match self.one(change)? {
                Ok(line) => {
                    tally.made += 1;
                    io.say(&printable(&format!("done: {line}\n")))?;
                }
                Err(refusal) => {
                    io.say(&printable(&tally.refuse(refusal)))?;
                    if !each {
                        break;
                    }
                }
            }
        }
        Ok(tally)
    }

    /// Makes one change: what was done, or why not.
    fn one(&mut self, change: &Change) -> Result<Result<String, Refusal>, Failure> {
        let words = change.words();
        let bytes = match bytes(change, &self.schema) {
            Ok(bytes) => bytes,
            Err(fault) => return Ok(Err(Refusal::Unusable(format!("{words}: {fault}")))),
        };
        let answer = match self.whole {
            true => self.stores.plain_change(&bytes),
            false => self.stores.quick_change(&bytes),
        };
        if answer.number != keeper::DONE {
            let detail = asked(answer, change, &bytes, &self.schema, &self.stores);
            let line = format!("{} ({words})", headline(answer.number, &detail));
            return Ok(Err(Refusal::Refused(answer.number, line)));
        }
        let row = change.target(&self.schema);
        self.schema = held(&self.stores)?;
        let told = row.map(|row| self.schema.told(row)).unwrap_or_default();
        Ok(Ok(format!("{words} ({told})")))
    }

    /// Saves what was made, if it counts, and says so. No answer may be lost
    /// before the file is replaced.
    pub fn finish(
        &self,
        tally: &Tally,
        locked: Option<&Locked>,
        io: &mut Io,
    ) -> Result<(), Failure> {
        io.out.flush()?;
        let locked_to_save = locked.filter(|_| tally.counts());
        if let Some(locked) = locked_to_save {
            locked.replace(&self.rewritten()?, io.err)?;
        }
        let Tally { made, refused, .. } = tally;
        let words = match (locked_to_save.is_some(), tally.counts()) {
            (true, _) if *refused > 0 => format!("saved with {made} of {} changes", made + refused),
            (true, _) => "saved".to_owned(),
            (false, true) => "a dry run: nothing is saved".to_owned(),
            (false, false) => "nothing is changed".to_owned(),
        };
        let name = &self.given.name;
        let told = io
            .say(&format!("{name}: {words}\n"))
            .and_then(|()| Ok(io.out.flush()?));
        match told {
            Err(_) if locked_to_save.is_some() => Err(Failure::unusable(format!(
                "{name}: {words}, but the output cannot be written"
            ))),
            Ok(()) if *refused > 0 => Err(tally.failure()),
            told => told,
        }
    }

    /// The schema in the form in which it was given. A text is read again, so that
    /// nothing is saved that says anything else.
    fn rewritten(&self) -> Result<Vec<u8>, Failure> {
        let sheet = self.stores.sheet().map_err(unwritten)?;
        if self.given.form == Form::Sheet {
            return Ok(sheet);
        }
        let name = self.given.name.clone();
        let text = patched(&self.given.text(), &self.before, &self.schema);
        let text = self.given.in_place(&text);
        let again = Given::of(name.clone(), text.clone())?;
        let (again, _) = sheet_of(&again, &mut std::io::sink())?;
        let again = Stores::loaded(&again).and_then(|stores| stores.sheet());
        match again == Ok(sheet) {
            true => Ok(text),
            false => Err(Failure::unusable(format!(
                "{name}: the text cannot be rewritten, so it is as it was"
            ))),
        }
    }
}
