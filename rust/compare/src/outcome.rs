//! All that can be seen of a call, and where two calls differ.

use reference::Stores;
use std::fmt;

/// All that can be seen of a call.
#[derive(Clone, Debug, PartialEq, Eq)]
pub struct Outcome {
    /// The number given back.
    pub number: u64,
    /// Table, place and what stands behind them.
    pub detail: Vec<u64>,
    /// The stores as the call left them.
    pub stores: Stores,
    /// The output as the call left it.
    pub output: Vec<u8>,
}

/// Where two outcomes differ.
#[derive(Clone, Debug, PartialEq, Eq)]
pub struct Difference {
    /// What differs, in words.
    pub what: String,
}

impl fmt::Display for Difference {
    fn fmt(&self, out: &mut fmt::Formatter) -> fmt::Result {
        out.write_str(&self.what)
    }
}

impl Outcome {
    fn told(&self) -> String {
        let detail: Vec<String> = self.detail.iter().take(2).map(u64::to_string).collect();
        format!("{} {}", self.number, detail.join(" "))
    }

    fn parts(&self) -> impl Iterator<Item = (String, &[u8])> {
        let stores = self.stores.lent().into_iter().enumerate();
        let stores = stores.map(|(number, bytes)| (format!("store {number}"), bytes));
        stores.chain([("output".to_owned(), self.output.as_slice())])
    }

    /// The first difference from an outcome, if there is one.
    pub fn differs(&self, expected: &Outcome) -> Option<Difference> {
        if self == expected {
            return None;
        }
        let pairs = self.parts().zip(expected.parts());
        let bytes = pairs.filter_map(|((part, got), (_, wanted))| first_byte(&part, got, wanted));
        let mut what = format!("answer {}, not {}", self.told(), expected.told());
        bytes.for_each(|byte| what += &byte);
        Some(Difference { what })
    }
}

fn first_byte(part: &str, got: &[u8], wanted: &[u8]) -> Option<String> {
    let mut pairs = got.iter().zip(wanted).enumerate();
    let (at, (got, wanted)) = pairs.find(|(_, (got, wanted))| got != wanted)?;
    Some(format!("; {part} at {at}: {got:02x}, not {wanted:02x}"))
}
