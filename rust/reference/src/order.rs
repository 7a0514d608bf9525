//! Are the stores in order?

use crate::answer::Answer;
use crate::closure;
use crate::layout::Tables;
use crate::rules::Judged;

/// What an audit says of stores in shape. "Audit gives 12 to 29 by number";
/// "3 ... Audit: only kept sets are wrong".
pub fn verdict(tables: &Tables) -> Answer {
    if let Some((rule, row)) = Judged::standing(&tables.schema).first_broken() {
        return Answer::on(rule, row);
    }
    if tables.kept != closure::afresh(&tables.schema) {
        return Answer::bare(3);
    }
    Answer::bare(0)
}

/// "*In order*: shape, rules 12 to 29, and kept sets equal to those worked out
/// afresh, zero for unused rows."
pub fn in_order(tables: &Tables) -> bool {
    verdict(tables) == Answer::bare(0)
}
