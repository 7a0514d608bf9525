//! Quick changes above whose changed row the chain of superclasses goes astray.
//! Only stores not in order have such chains. These changes were refused with 22
//! where nothing before it held; since document 02's wish 7 each "goes on to the
//! next number whose condition holds".

use reference::rules::{Judged, RULES};
use reference::schema::{CLASS_LIMIT, Row, Schema};
use reference::{Stores, changes, reading};

/// Whether a quick change of these stores is one of them.
pub fn is_astray(stores: &Stores, change: &[u8]) -> bool {
    let (Ok(before), Ok(change)) = (stores.tables(), reading::change(change)) else {
        return false;
    };
    let row = change.row(&before.schema);
    let Row::Class(number) = row else {
        return false;
    };
    if changes::refusal(&before.schema, &change).is_some() {
        return false;
    }
    let after = changes::applied(&before.schema, &change);
    let judged = Judged {
        schema: &after,
        added: change.added(&before.schema),
    };
    let mut before_22 = RULES.into_iter().take_while(|rule| *rule != 23);
    !before_22.any(|rule| judged.breaks(rule, row)) && !comes_to_row_0(&after, number)
}

/// "The chain of superclasses from a class up to row 0": whether it ends there.
fn comes_to_row_0(schema: &Schema, number: u16) -> bool {
    let step = |met: u16, _| match met {
        0 => Some(0),
        _ => schema.class(met).map(|class| class.superclass),
    };
    (0..CLASS_LIMIT).try_fold(number, step) == Some(0)
}
