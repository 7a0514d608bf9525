//! One input: a call, and all that is lent to it.

use crate::astray::is_astray;
use crate::keeper::Keeper;
use crate::outcome::Outcome;
use reference::{PAST, Stores};

/// What stands in `detail` before the call.
const UNTOLD: u64 = 0xA5A5_A5A5_A5A5_A5A5;

/// A call and what it is given beside the stores.
#[derive(Clone, Debug)]
pub enum Call {
    /// A load of this sheet.
    Load(Vec<u8>),
    /// A write into an output of this length.
    Write(usize),
    /// An audit.
    Audit,
    /// This plain change.
    Plain(Vec<u8>),
    /// This quick change.
    Quick(Vec<u8>),
    /// The depth of this class.
    Depth(u16),
}

impl Call {
    /// The call's name.
    pub fn name(&self) -> &'static str {
        match self {
            Call::Load(_) => "load",
            Call::Write(_) => "write",
            Call::Audit => "audit",
            Call::Plain(_) => "plain",
            Call::Quick(_) => "quick",
            Call::Depth(_) => "depth",
        }
    }
}

/// A call with the stores that it is lent.
#[derive(Clone, Debug)]
pub struct Case {
    /// The call.
    pub call: Call,
    /// The stores.
    pub stores: Stores,
    /// How many numbers `detail` has room for.
    pub detail: usize,
}

impl Case {
    /// A call with room for what it tells.
    pub fn new(call: Call, stores: Stores) -> Case {
        Case {
            call,
            stores,
            detail: 2,
        }
    }

    /// Whether it is a quick change of stores that are in shape and not in order.
    pub fn is_quick_on_disorder(&self) -> bool {
        matches!(self.call, Call::Quick(_)) && self.stores.audit().number > 2
    }

    /// Whether it is a quick change, with room for what it tells, above whose row
    /// the chain goes astray.
    pub fn is_quick_astray(&self) -> bool {
        match &self.call {
            Call::Quick(change) => self.detail >= 2 && is_astray(&self.stores, change),
            _ => false,
        }
    }

    /// Plays the case with a keeper.
    pub fn play(&self, keeper: &impl Keeper) -> Outcome {
        let mut detail = vec![UNTOLD; self.detail];
        let mut stores = self.stores.clone();
        let mut output = match self.call {
            Call::Write(length) => vec![PAST; length],
            _ => Vec::new(),
        };
        let number = keeper.make(&self.call, &mut stores, &mut output, &mut detail);
        Outcome {
            number,
            detail,
            stores,
            output,
        }
    }
}
