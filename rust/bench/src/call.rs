//! The calls that are measured.

use keeper::{Answer, Stores};

/// A call that is measured.
#[derive(Clone, Copy, Debug, PartialEq, Eq)]
pub enum Call {
    /// `keeper_load`
    Load,
    /// `keeper_audit`
    Audit,
    /// `keeper_write`
    Write,
    /// `keeper_depth`
    Depth,
    /// `keeper_plain_change`
    Plain,
    /// `keeper_quick_change`
    Quick,
}

impl Call {
    /// The symbol's last part.
    pub const fn name(self) -> &'static str {
        match self {
            Call::Load => "load",
            Call::Audit => "audit",
            Call::Write => "write",
            Call::Depth => "depth",
            Call::Plain => "plain_change",
            Call::Quick => "quick_change",
        }
    }

    /// The call of a name.
    pub fn named(name: &str) -> Option<Call> {
        let all = [
            Call::Load,
            Call::Audit,
            Call::Write,
            Call::Depth,
            Call::Plain,
            Call::Quick,
        ];
        all.into_iter().find(|call| call.name() == name)
    }

    /// Makes the call; the bytes are the sheet or the change.
    pub fn make(self, stores: &mut Stores, bytes: &[u8], output: &mut [u8]) -> Answer {
        match self {
            Call::Load => stores.load(bytes),
            Call::Audit => stores.audit(),
            Call::Write => stores.write(output),
            Call::Depth => stores.depth(1),
            Call::Plain => stores.plain_change(bytes),
            Call::Quick => stores.quick_change(bytes),
        }
    }
}
