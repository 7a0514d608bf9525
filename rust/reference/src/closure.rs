//! Kept sets, worked out afresh: "by these definitions, from the rows alone".

use crate::schema::{CLASS_LIMIT, Numbers, Schema};

/// "For each class the keeper stores three sets"
#[derive(Clone, Debug, Default, PartialEq, Eq)]
pub struct Kept {
    /// "classes reached"
    pub reached: Numbers,
    /// "mandatory attributes (what it *demands*: the union over the classes
    /// reached)"
    pub mandatory: Numbers,
    /// "optional attributes (likewise, fixed and open)"
    pub optional: Numbers,
}

impl Kept {
    /// The union with another class's kept sets, set by set.
    pub fn join(&mut self, other: &Kept) {
        self.reached.extend(&other.reached);
        self.mandatory.extend(&other.mandatory);
        self.optional.extend(&other.optional);
    }
}

/// The kept sets of all 128 places: "those worked out afresh, zero for unused
/// rows".
pub fn afresh(schema: &Schema) -> Vec<Kept> {
    let used = (0..schema.next_class()).map(|class| afresh_of(schema, class));
    let mut kept: Vec<Kept> = used.collect();
    kept.resize(CLASS_LIMIT, Kept::default());
    kept
}

/// One class's three kept sets.
pub fn afresh_of(schema: &Schema, class: u16) -> Kept {
    let reached = reach(schema, class);
    let mandatory = mandatory(schema, &reached);
    let optional = optional(schema, &reached);
    Kept {
        reached,
        mandatory,
        optional,
    }
}

/// What a class demands.
pub fn demands(schema: &Schema, class: u16) -> Numbers {
    mandatory(schema, &reach(schema, class))
}

fn reach(schema: &Schema, class: u16) -> Numbers {
    let mut reached = Numbers::new();
    visit(schema, class, &mut reached);
    reached
}

/// "A class *reaches* itself, its superclass, all its auxiliaries, and what
/// these reach; each auxiliary brings its own superclass and its own
/// auxiliaries. Auxiliary loops are legal. Nothing more is reached; numbers
/// without a row are passed over." Defunct rows are rows like others (R30).
fn visit(schema: &Schema, number: u16, reached: &mut Numbers) {
    let Some(class) = schema.class(number) else {
        return;
    };
    if !reached.insert(number) {
        return;
    }
    visit(schema, class.superclass, reached);
    for auxiliary in class.auxiliaries() {
        visit(schema, auxiliary, reached);
    }
}

fn mandatory(schema: &Schema, reached: &Numbers) -> Numbers {
    let classes = reached.iter().filter_map(|number| schema.class(*number));
    classes
        .flat_map(|class| &class.mandatory)
        .copied()
        .collect()
}

fn optional(schema: &Schema, reached: &Numbers) -> Numbers {
    let classes = reached.iter().filter_map(|number| schema.class(*number));
    classes.flat_map(|class| class.optional()).collect()
}
