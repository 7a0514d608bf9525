//! Which numbers each call has given, and how often.

use crate::{Random, changes, sheets, stores};
use reference::rules::RULES;
use reference::{NUMBERS, PAST, Stores};
use std::collections::BTreeMap;
use std::fmt;

/// The calls, in the order of the papers.
pub const CALLS: [&str; 6] = ["load", "write", "audit", "plain", "quick", "depth"];

/// How often each call gave each number.
#[derive(Clone, Debug, Default)]
pub struct Coverage {
    counts: BTreeMap<(&'static str, u64), u64>,
}

impl Coverage {
    /// Plays so many rounds.
    pub fn of(seed: u64, rounds: usize) -> Coverage {
        let mut coverage = Coverage::default();
        let mut random = Random::new(seed);
        for _ in 0..rounds {
            for _ in 0..3 {
                coverage.load(&mut random);
                coverage.ask(&mut random);
            }
            coverage.change_in_order(&mut random);
            coverage.change_any(&mut random);
        }
        coverage
    }

    /// How often a call gave a number.
    pub fn count(&self, call: &'static str, number: u64) -> u64 {
        self.counts.get(&(call, number)).copied().unwrap_or(0)
    }

    /// Counts a number that a call gave.
    pub fn note(&mut self, call: &'static str, number: u64) {
        *self.counts.entry((call, number)).or_default() += 1;
    }

    /// The calls that were made at all, in the order of the papers.
    fn calls(&self) -> impl Iterator<Item = &'static str> {
        let made = |call: &&str| self.counts.keys().any(|(made, _)| made == call);
        CALLS.into_iter().filter(made)
    }

    fn load(&mut self, random: &mut Random) {
        let mut stores = match random.once_in(5) {
            true => stores::any(random),
            false => Stores::default(),
        };
        let answer = stores.load(&sheets::any(random));
        self.note("load", answer.number);
    }

    fn ask(&mut self, random: &mut Random) {
        let stores = stores::any(random);
        let mut out = vec![PAST; random.below(40_000)];
        self.note("audit", stores.audit().number);
        self.note("write", stores.write(&mut out).number);
        let class = match random.once_in(10) {
            true => random.number() as u16,
            false => random.below(stores.schema().classes.len() + 1) as u16,
        };
        self.note("depth", stores.depth(class).number);
    }

    fn change_in_order(&mut self, random: &mut Random) {
        let mut stores = stores::in_order(random);
        for _ in 0..8 {
            let change = changes::any(random, &stores.schema());
            let mut copy = stores.clone();
            self.note("plain", copy.plain(&change).number);
            self.note("quick", stores.quick(&change).number);
        }
    }

    fn change_any(&mut self, random: &mut Random) {
        let mut stores = stores::any(random);
        for _ in 0..4 {
            let change = changes::any(random, &stores.schema());
            self.note("plain", stores.clone().plain(&change).number);
            self.note("quick", stores.quick(&change).number);
        }
    }
}

/// Whether the papers let a call give a number.
pub fn may_give(call: &str, number: u64) -> bool {
    let rules = RULES.contains(&number);
    match call {
        "load" => rules || matches!(number, 0 | 1 | 4 | 6),
        "write" => matches!(number, 0..=2 | 31),
        "audit" => rules || matches!(number, 0..=3),
        "plain" => rules || matches!(number, 0..=11 | 30),
        "quick" => rules || matches!(number, 0..=2 | 4..=11 | 30),
        "depth" => matches!(number, 0..=2 | 5 | 18),
        _ => false,
    }
}

impl fmt::Display for Coverage {
    fn fmt(&self, out: &mut fmt::Formatter) -> fmt::Result {
        write!(out, "no")?;
        for call in self.calls() {
            write!(out, " {call:>7}")?;
        }
        for number in NUMBERS {
            write!(out, "\n{number:2}")?;
            for call in self.calls() {
                match (self.count(call, number), may_give(call, number)) {
                    (0, false) => write!(out, " {:>7}", "-")?,
                    (count, _) => write!(out, " {count:>7}")?,
                }
            }
        }
        Ok(())
    }
}
