//! "*Plain change* (the whole check): audit, apply, judge the whole result.
//! Done, only that change is made and the stores are in order."

use crate::answer::Answer;
use crate::changes::{self, Change};
use crate::closure;
use crate::layout::Tables;
use crate::order::in_order;
use crate::reading;
use crate::rules::Judged;
use crate::schema::{Row, Schema};

/// The tables after the change and the row changed or added, or the refusal.
pub fn plain(before: &Tables, change: &[u8]) -> Result<(Tables, Row), Answer> {
    if !in_order(before) {
        return Err(Answer::bare(3));
    }
    let change = reading::change(change).map_err(|four| Answer::at(4, four.place))?;
    if let Some(number) = changes::refusal(&before.schema, &change) {
        return Err(Answer::bare(number));
    }
    let after = changes::applied(&before.schema, &change);
    if let Some(number) = broken_rule(&before.schema, &change, &after) {
        return Err(Answer::bare(number));
    }
    if some_mandatory_set_differs(&before.schema, &after) {
        return Err(Answer::bare(30));
    }
    let row = change.row(&before.schema);
    let kept = closure::afresh(&after);
    let schema = after;
    Ok((Tables { schema, kept }, row))
}

/// The first of the rules that any row of the result breaks.
fn broken_rule(before: &Schema, change: &Change, after: &Schema) -> Option<u64> {
    let judged = Judged {
        schema: after,
        added: change.added(before),
    };
    judged.first_broken().map(|(rule, _)| rule)
}

/// "30 some present class's mandatory set would differ": present is a class
/// that has a row before the change, defunct too (R33).
fn some_mandatory_set_differs(before: &Schema, after: &Schema) -> bool {
    let mut present = 0..before.next_class();
    present.any(|class| closure::demands(before, class) != closure::demands(after, class))
}
