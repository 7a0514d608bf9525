//! Scripts made at random: a mix of all steps, most of them worth playing on
//! the stores that the steps before have left.

use crate::player::Player;
use crate::step::{LONGEST, Step};
use generate::stores::{disorder_kept, disorder_rows, likely_place};
use generate::{Random, changes, sheets};
use reference::layout::Tables;
use reference::{LENGTHS, Stores};
use std::collections::VecDeque;

/// At most so many pokes bring stores out of order at a time.
const MOST_POKES: usize = 60;

/// What a script may hold.
#[derive(Clone, Copy, Debug, PartialEq, Eq)]
pub enum Kind {
    /// Every step of the format.
    Whole,
    /// What the Rattle player plays: nothing over 64 KiB.
    Small,
}

/// The small player's limit, for the script too.
pub const SMALL: u32 = 1 << 16;

/// Sheets of a small script, so that it has room for many.
const SMALL_SHEET: usize = 3000;

/// An endless script.
#[derive(Clone, Debug)]
pub struct Script {
    kind: Kind,
    random: Random,
    player: Player,
    planned: VecDeque<Step>,
}

impl Script {
    /// The script that this seed begins.
    pub fn new(seed: u64, kind: Kind) -> Script {
        Script {
            kind,
            random: Random::new(seed),
            player: Player::default(),
            planned: VecDeque::new(),
        }
    }

    /// The next step that a script of this kind may hold.
    fn next_planned(&mut self) -> Step {
        loop {
            match self.planned.pop_front() {
                None => self.plan(),
                Some(Step::Load(sheet))
                    if self.kind == Kind::Small && sheet.len() > SMALL_SHEET => {}
                Some(step) => return step,
            }
        }
    }

    fn plan(&mut self) {
        let empty = self.player.stores().schema().is_empty();
        let chance = self.random.below(100);
        if empty && self.random.once_in(2) {
            return self.plan_sound_load();
        }
        if let Some(step) = self.change_again() {
            return self.plan_change(step);
        }
        match chance {
            0..=4 => self.plan_load(),
            5..=6 => self.plan_sound_load(),
            7..=29 => self.plan_change(Step::Plain),
            30..=72 if self.kind == Kind::Whole => self.plan_change(Step::Quick),
            30..=48 => self.plan_change(Step::Quick),
            49..=54 => self.plan_load(),
            55..=64 => self.plan_disorder_asked(),
            65..=68 => self.plan_write(),
            69..=72 => self.plan_depth(),
            73..=79 => self.planned.push_back(Step::Audit),
            80..=84 => self.plan_write(),
            85..=89 => self.plan_depth(),
            90..=92 => self.plan_poke(),
            93..=97 => self.plan_disorder(),
            _ => self.plan_resize(),
        }
    }

    /// The change that a small script goes on with, as it mostly does: plain or
    /// quick while the stores are in order, quick while they are only in shape,
    /// since a plain change says nothing but 3 of those.
    fn change_again(&mut self) -> Option<fn(Vec<u8>) -> Step> {
        if self.kind == Kind::Whole {
            return None;
        }
        match self.player.stores().audit().number {
            1 | 2 => None,
            0 if self.random.once_in(6) => None,
            0 if self.random.once_in(2) => Some(Step::Plain),
            3.. if self.random.once_in(3) => None,
            _ => Some(Step::Quick),
        }
    }

    fn plan_load(&mut self) {
        let sheet = sheets::any(&mut self.random);
        self.planned.push_back(Step::Load(sheet));
    }

    fn plan_sound_load(&mut self) {
        let sheet = sheets::sound(&mut self.random);
        self.planned.push_back(Step::Load(sheet));
    }

    fn plan_change(&mut self, step: fn(Vec<u8>) -> Step) {
        let schema = self.player.stores().schema();
        let change = changes::any(&mut self.random, &schema);
        self.planned.push_back(step(change));
    }

    fn plan_write(&mut self) {
        let length = match self.random.below(6) {
            0 if self.kind == Kind::Small => SMALL,
            0 => LONGEST,
            1 => self.random.below(200) as u32,
            _ => self.random.below(60_000) as u32,
        };
        self.planned.push_back(Step::Write(length));
    }

    fn plan_depth(&mut self) {
        let count = self.player.stores().schema().classes.len();
        let class = match self.random.once_in(10) {
            true => self.random.number() as u16,
            false => self.random.below(count + 1) as u16,
        };
        self.planned.push_back(Step::Depth(class));
    }

    fn plan_poke(&mut self) {
        let store = self.random.below(LENGTHS.len());
        let length = self.player.stores().0[store].len();
        if length > 0 {
            let offset = likely_place(&mut self.random, length);
            self.planned.push_back(Step::Poke {
                store: store as u8,
                offset: offset as u32,
                byte: self.random.byte(),
            });
        }
    }

    /// Pokes that keep shape and break order.
    fn plan_disorder(&mut self) {
        let Ok(tables) = self.player.stores().tables() else {
            return self.plan_sound_load();
        };
        let disordered = self.disordered(tables);
        let pokes = pokes(self.player.stores(), &disordered);
        if pokes.len() <= MOST_POKES {
            self.planned.extend(pokes);
        }
    }

    /// Pokes, and then every call that tells what they did.
    fn plan_disorder_asked(&mut self) {
        self.plan_disorder();
        self.planned.push_back(Step::Audit);
        self.plan_depth();
        self.plan_write();
    }

    fn disordered(&mut self, mut tables: Tables) -> Stores {
        match self.random.once_in(2) {
            true => disorder_rows(&mut self.random, &mut tables.schema),
            false => disorder_kept(&mut self.random, &mut tables.kept[..8]),
        }
        Stores::holding(&tables)
    }

    /// A store too short for a while, and another length afterwards.
    fn plan_resize(&mut self) {
        let store = self.random.below(LENGTHS.len());
        let exact = LENGTHS[store];
        let short = match self.random.below(3) {
            0 => self.random.below(exact),
            _ => exact - 1,
        };
        let long = exact + self.random.below(40);
        let resize = |length: usize| Step::Resize {
            store: store as u8,
            length: length as u32,
        };
        self.planned.push_back(resize(short));
        match self.random.below(4) {
            0 => self.plan_load(),
            1 => self.plan_change(Step::Plain),
            2 => self.plan_change(Step::Quick),
            _ => self
                .planned
                .extend([Step::Audit, Step::Depth(0), Step::Write(100)]),
        }
        self.planned.push_back(resize(long));
        if !self.random.once_in(4) {
            self.plan_sound_load();
        }
    }
}

impl Iterator for Script {
    type Item = Step;

    fn next(&mut self) -> Option<Step> {
        let step = self.next_planned();
        self.player.advance(&step);
        Some(step)
    }
}

/// The pokes that make one lot of stores, as far as their lengths go, another.
fn pokes(from: &Stores, to: &Stores) -> Vec<Step> {
    let mut pokes = Vec::new();
    let stores = from.0.iter().zip(&to.0).zip(LENGTHS);
    for (store, ((old, new), length)) in (0..).zip(stores) {
        let pairs = (0..).zip(old.iter().zip(new)).take(length);
        let changed = pairs.filter(|(_, (old, new))| old != new);
        pokes.extend(changed.map(|(offset, (_, byte))| Step::Poke {
            store,
            offset,
            byte: *byte,
        }));
    }
    pokes
}
