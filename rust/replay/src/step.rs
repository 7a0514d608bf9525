//! The steps of a script, and their bytes.

use reference::LENGTHS;
use std::fmt;

/// "at most 1 MiB", for an output and for a store.
pub const LONGEST: u32 = 1 << 20;

/// One step; "numbers most significant byte first".
#[derive(Clone, Debug, PartialEq, Eq)]
pub enum Step {
    /// "01 load (u32 length, sheet)"
    Load(Vec<u8>),
    /// "02 plain change (u32 length, change)"
    Plain(Vec<u8>),
    /// "03 quick change (the same)"
    Quick(Vec<u8>),
    /// "04 audit"
    Audit,
    /// "05 write (u32 length of the output lent, at most 1 MiB)"
    Write(u32),
    /// "06 depth (u16)"
    Depth(u16),
    /// "07 poke (u8 store 0..2, u32 offset, u8 byte)"
    Poke {
        /// The store's number.
        store: u8,
        /// Where in the store; past its end nothing is poked.
        offset: u32,
        /// The new byte.
        byte: u8,
    },
    /// "08 resize (u8 store, u32 length; cut, or lengthened by A5 bytes; at
    /// most 1 MiB)"
    Resize {
        /// The store's number.
        store: u8,
        /// The new length.
        length: u32,
    },
}

/// A script that is cut, has an unknown step, names a store that is not there
/// or asks for more than 1 MiB.
#[derive(Clone, Copy, Debug, PartialEq, Eq)]
pub struct Unplayable {
    /// Where the step begins.
    pub offset: usize,
}

impl fmt::Display for Unplayable {
    fn fmt(&self, out: &mut fmt::Formatter) -> fmt::Result {
        write!(out, "no step can be read at offset {}", self.offset)
    }
}

impl std::error::Error for Unplayable {}

impl Step {
    /// The step's bytes.
    pub fn bytes(&self) -> Vec<u8> {
        match self {
            Step::Load(sheet) => lent(0x01, sheet),
            Step::Plain(change) => lent(0x02, change),
            Step::Quick(change) => lent(0x03, change),
            Step::Audit => vec![0x04],
            Step::Write(length) => [&[0x05], &length.to_be_bytes()[..]].concat(),
            Step::Depth(class) => [&[0x06], &class.to_be_bytes()[..]].concat(),
            Step::Poke {
                store,
                offset,
                byte,
            } => [&[0x07, *store], &offset.to_be_bytes()[..], &[*byte]].concat(),
            Step::Resize { store, length } => [&[0x08, *store], &length.to_be_bytes()[..]].concat(),
        }
    }

    /// The name its line begins with.
    pub fn name(&self) -> &'static str {
        match self {
            Step::Load(_) => "load",
            Step::Plain(_) => "plain",
            Step::Quick(_) => "quick",
            Step::Audit => "audit",
            Step::Write(_) => "write",
            Step::Depth(_) => "depth",
            Step::Poke { .. } => "poke",
            Step::Resize { .. } => "resize",
        }
    }

    /// Takes the first step off a script.
    fn read(script: &mut &[u8]) -> Option<Step> {
        let step = match byte(script)? {
            0x01 => Step::Load(bytes(script)?),
            0x02 => Step::Plain(bytes(script)?),
            0x03 => Step::Quick(bytes(script)?),
            0x04 => Step::Audit,
            0x05 => Step::Write(length(script)?),
            0x06 => Step::Depth(u16::from_be_bytes(array(script)?)),
            0x07 => Step::Poke {
                store: store(script)?,
                offset: u32::from_be_bytes(array(script)?),
                byte: byte(script)?,
            },
            0x08 => Step::Resize {
                store: store(script)?,
                length: length(script)?,
            },
            _ => return None,
        };
        Some(step)
    }
}

fn lent(code: u8, bytes: &[u8]) -> Vec<u8> {
    let length = bytes.len() as u32;
    [&[code], &length.to_be_bytes()[..], bytes].concat()
}

fn array<const N: usize>(script: &mut &[u8]) -> Option<[u8; N]> {
    let (taken, rest) = script.split_first_chunk()?;
    *script = rest;
    Some(*taken)
}

fn byte(script: &mut &[u8]) -> Option<u8> {
    array(script).map(|[byte]| byte)
}

fn store(script: &mut &[u8]) -> Option<u8> {
    byte(script).filter(|store| usize::from(*store) < LENGTHS.len())
}

fn length(script: &mut &[u8]) -> Option<u32> {
    let length = array(script).map(u32::from_be_bytes);
    length.filter(|length| *length <= LONGEST)
}

fn bytes(script: &mut &[u8]) -> Option<Vec<u8>> {
    let length = array(script).map(u32::from_be_bytes)?;
    let (taken, rest) = script.split_at_checked(length as usize)?;
    *script = rest;
    Some(taken.to_vec())
}

/// The steps of a script, one after the other, up to one that cannot be read.
pub fn steps(script: &[u8]) -> impl Iterator<Item = Result<Step, Unplayable>> {
    let mut rest = script;
    std::iter::from_fn(move || {
        if rest.is_empty() {
            return None;
        }
        let offset = script.len() - rest.len();
        let step = Step::read(&mut rest);
        if step.is_none() {
            rest = &[];
        }
        Some(step.ok_or(Unplayable { offset }))
    })
}
