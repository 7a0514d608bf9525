//! "*Quick change*: the same, but of the audit only shape. It judges rules 12
//! to 29 for the changed row alone, against all rows."

use crate::answer::Answer;
use crate::changes::{self, Alteration, Change};
use crate::closure::{self, Kept};
use crate::layout::Tables;
use crate::reading;
use crate::rules::Judged;
use crate::schema::{Class, OpenList, Row, Schema};

/// The tables after the change and the row changed or added, or the refusal.
/// "On stores not in order, the quick call still has one fixed answer."
pub fn quick(before: &Tables, change: &[u8]) -> Result<(Tables, Row), Answer> {
    let change = reading::change(change).map_err(|four| Answer::at(4, four.place))?;
    if let Some(number) = changes::refusal(&before.schema, &change) {
        return Err(Answer::bare(number));
    }
    let row = change.row(&before.schema);
    let after = changes::applied(&before.schema, &change);
    let judged = Judged {
        schema: &after,
        added: change.added(&before.schema),
    };
    if let Some(number) = judged.first_broken_by(row) {
        return Err(Answer::bare(number));
    }
    if mandatory_set_would_differ(before, &change, &after) {
        return Err(Answer::bare(30));
    }
    let kept = kept_after(before, &change, &after);
    let schema = after;
    Ok((Tables { schema, kept }, row))
}

/// Rule 30 as the quick call has it.
fn mandatory_set_would_differ(before: &Tables, change: &Change, after: &Schema) -> bool {
    let target = change.row(&before.schema).number();
    match change {
        Change::Alter { alteration, .. } => match alteration {
            Alteration::AddEntry {
                list: OpenList::Auxiliary,
                entry,
            } => demands_more(before, *entry, target),
            Alteration::RemoveEntry { .. } => {
                // "its rule 30 holds exactly when the target's mandatory set,
                // afresh from the rows before and after, differs"
                closure::demands(&before.schema, target) != closure::demands(after, target)
            }
            _ => false,
        },
        // "No other quick change gives 30."
        _ => false,
    }
}

/// "Rule 30 for an added auxiliary holds exactly when its kept mandatory set
/// is not within the target's."
fn demands_more(before: &Tables, auxiliary: u16, target: u16) -> bool {
    let of_auxiliary = &kept_of(&before.kept, auxiliary).mandatory;
    let of_target = &kept_of(&before.kept, target).mandatory;
    !of_auxiliary.is_subset(of_target)
}

/// The kept sets after an accepted change.
fn kept_after(before: &Tables, change: &Change, after: &Schema) -> Vec<Kept> {
    let mut kept = before.kept.clone();
    match change {
        Change::AddClass(class) => {
            let number = before.schema.next_class();
            kept[usize::from(number)] = kept_of_added(&before.kept, number, class);
        }
        Change::Alter {
            target: Row::Class(target),
            alteration,
        } => {
            for class in holding(before, *target) {
                let own = &mut kept[usize::from(class)];
                renew(own, before, alteration, after, class);
            }
        }
        // Kept sets are of classes: an attribute's change leaves them alone.
        Change::AddAttribute(_) | Change::Alter { .. } => {}
    }
    kept
}

/// "An added class gets the union of its superclass's and auxiliaries' kept
/// sets, its own lists and itself." For row 0 the superclass is the class
/// itself, and its kept sets are what stands there (R81).
fn kept_of_added(kept: &[Kept], number: u16, class: &Class) -> Kept {
    let mut own = Kept {
        reached: [number].into(),
        mandatory: class.mandatory.clone(),
        optional: class.optional().collect(),
    };
    own.join(&kept_of(kept, class.superclass));
    for auxiliary in class.auxiliaries() {
        own.join(&kept_of(kept, auxiliary));
    }
    own
}

/// "every class whose kept reach holds the target", as kept before the change;
/// rows below the count only (R76, R77).
fn holding(before: &Tables, target: u16) -> Vec<u16> {
    let holds = |class: &u16| kept_of(&before.kept, *class).reached.contains(&target);
    (0..before.schema.next_class()).filter(holds).collect()
}

/// What becomes of the kept sets of a class whose kept reach holds the target.
fn renew(own: &mut Kept, before: &Tables, alteration: &Alteration, after: &Schema, class: u16) {
    match alteration {
        // "An added auxiliary or optional attribute is joined in for every
        // class whose kept reach holds the target."
        Alteration::AddEntry { list, entry } => match list {
            OpenList::Optional => {
                own.optional.insert(*entry);
            }
            OpenList::Auxiliary => own.join(&kept_of(&before.kept, *entry)),
            OpenList::PossibleSuperiors => {}
        },
        // "After a removal those are worked out afresh from the rows"
        Alteration::RemoveEntry { .. } => *own = closure::afresh_of(after, class),
        Alteration::Range { .. }
        | Alteration::Name(_)
        | Alteration::Deactivate
        | Alteration::Reactivate => {}
    }
}

/// The kept sets that stand at a class number.
fn kept_of(kept: &[Kept], class: u16) -> Kept {
    kept.get(usize::from(class)).cloned().unwrap_or_default()
}
