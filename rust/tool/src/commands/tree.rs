//! `keeper tree`: superclasses as a tree, auxiliaries beside them.

use super::list::marks;
use super::{Command, Io, opened};
use crate::arguments::Arguments;
use crate::failure::Failure;
use crate::rows::{List, RowId, Schema};

pub const COMMAND: Command = Command {
    name: "tree",
    usage: "tree FILE",
    summary: "Draws the classes as a tree under their superclasses",
    help: "Behind each class stand its category, what marks it, and, behind a plus, the
auxiliary classes that it lists itself.

Example:

    $ keeper tree samples/forest.sheet
    top (abstract, base)
    ├─ person (88 class, base)
    │  └─ forester (structural) + mailRecipient
    ..",
    alone: &[],
    valued: &[],
    act,
};

fn act(arguments: &Arguments, io: &mut Io) -> Result<(), Failure> {
    let opened = opened(arguments, COMMAND.usage, io)?;
    io.say(&drawn(&opened.schema))
}

/// The tree of an accepted schema: superclasses come before their classes, so
/// the lines end.
pub fn drawn(schema: &Schema) -> String {
    let mut lines = String::new();
    if !schema.classes.is_empty() {
        lines.push_str(&format!("{}\n", label(schema, 0)));
        draw(schema, 0, "", &mut lines);
    }
    lines
}

/// The classes right under a class.
pub fn children(schema: &Schema, class: usize) -> Vec<usize> {
    let classes = schema.classes.iter().enumerate();
    let under = classes.filter(|(at, row)| *at > class && usize::from(row.superclass) == class);
    under.map(|(at, _)| at).collect()
}

fn draw(schema: &Schema, class: usize, indent: &str, lines: &mut String) {
    let children = children(schema, class);
    for (place, child) in children.iter().enumerate() {
        let is_last = place + 1 == children.len();
        let (branch, below) = if is_last {
            ("└─ ", "   ")
        } else {
            ("├─ ", "│  ")
        };
        lines.push_str(&format!("{indent}{branch}{}\n", label(schema, *child)));
        draw(schema, *child, &format!("{indent}{below}"), lines);
    }
}

fn label(schema: &Schema, class: usize) -> String {
    let row = &schema.classes[class];
    let marks = marks(&row.common);
    let mut words = vec![row.category_word()];
    words.extend(marks.split_whitespace());
    let lists = [List::FixedAuxiliary, List::OpenAuxiliary].into_iter();
    let entries = lists.flat_map(|list| row.list(list).iter());
    let names: Vec<_> = entries
        .map(|number| schema.name(RowId::class(*number)))
        .collect();
    let beside = if names.is_empty() {
        String::new()
    } else {
        format!(" + {}", names.join(", "))
    };
    format!(
        "{} ({}){beside}",
        schema.name(RowId::class(class)),
        words.join(", ")
    )
}
