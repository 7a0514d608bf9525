//! Drafts as a schema: names looked up, superclasses first.

use super::drafts::{ClassDraft, Drafts, Reference, drafts};
use super::only::{is_superior, needed};
use super::records::records;
use crate::rows::{Class, RowId, Schema, Table};
use crate::text::Lines;
use crate::words::dotted;
use std::collections::{BTreeMap, BTreeSet, HashMap};

/// A schema taken in.
pub struct Import {
    /// Its rows.
    pub schema: Schema,
    /// The line of each row's entry.
    pub lines: Lines,
}

/// The rows of a text of LDIF, or only those that some names need. What does not
/// fit is told by entry and line; what is passed over is noted, in words.
pub fn import(text: &str, only: &[String], notes: &mut Vec<String>) -> Result<Import, String> {
    let drafts = drafts(&records(text)?, notes);
    if drafts.attributes.is_empty() && drafts.classes.is_empty() {
        return Err("no entry is an attributeSchema or a classSchema".to_owned());
    }
    let index = Index::of(&drafts);
    let taken = match only.is_empty() {
        true => index.rows.clone(),
        false => needed(&drafts, &index, only)?,
    };
    let faults = taken.iter().filter_map(|row| drafts.fault(*row));
    if let Some((_, fault)) = faults.min() {
        return Err(fault.to_owned());
    }
    let mut order = Order::of(&drafts, &index, &taken);
    order.is_part = !only.is_empty();
    let mut import = Import {
        schema: Schema::default(),
        lines: Lines::default(),
    };
    for number in &order.attributes {
        let draft = &drafts.attributes[*number];
        import.schema.attributes.push(draft.row.clone());
        import.lines.attributes.push(draft.line);
    }
    let mut left_out = 0;
    for number in &order.classes {
        let draft = &drafts.classes[*number];
        import
            .schema
            .classes
            .push(class(draft, &index, &order, &mut left_out)?);
        import.lines.classes.push(draft.line);
    }
    notes.extend(left_out_words(left_out));
    Ok(import)
}

/// How many possible superiors were left out, where any were.
fn left_out_words(count: usize) -> Option<String> {
    match count {
        0 => None,
        1 => Some("1 possible superior left out: its class is not taken".to_owned()),
        _ => Some(format!(
            "{count} possible superiors left out: their classes are not taken"
        )),
    }
}

/// Rows by name and by identifier.
pub struct Index {
    names: HashMap<(bool, String), usize>,
    rows: BTreeSet<RowId>,
}

impl Index {
    fn of(drafts: &Drafts) -> Index {
        let mut index = Index {
            names: HashMap::new(),
            rows: BTreeSet::new(),
        };
        let attributes = drafts
            .attributes
            .iter()
            .map(|draft| &draft.row.common)
            .enumerate();
        let classes = drafts
            .classes
            .iter()
            .map(|draft| &draft.row.common)
            .enumerate();
        let attributes = attributes.map(|(number, row)| (RowId::attribute(number), row));
        for (id, row) in attributes.chain(classes.map(|(number, row)| (RowId::class(number), row)))
        {
            let is_class = id.table == Table::Classes;
            let name = String::from_utf8_lossy(&row.name).to_ascii_lowercase();
            let identifier = Some(dotted(&row.arcs)).filter(|identifier| !identifier.is_empty());
            for key in [Some(name), identifier].into_iter().flatten() {
                index.names.entry((is_class, key)).or_insert(id.number);
            }
            index.rows.insert(id);
        }
        index
    }

    /// The row of a table with a name, case aside, or with an identifier.
    pub fn find(&self, table: Table, name: &str) -> Option<RowId> {
        let key = (table == Table::Classes, name.to_ascii_lowercase());
        self.names.get(&key).map(|number| RowId {
            table,
            number: *number,
        })
    }
}

/// The drafts that are taken, in the order of the schema.
struct Order {
    attributes: Vec<usize>,
    classes: Vec<usize>,
    numbers: BTreeMap<RowId, usize>,
    /// Whether only what some names need is taken.
    is_part: bool,
}

impl Order {
    fn of(drafts: &Drafts, index: &Index, taken: &BTreeSet<RowId>) -> Order {
        let of_table = |table| {
            taken
                .iter()
                .filter(move |row| row.table == table)
                .map(|row| row.number)
        };
        let attributes: Vec<_> = of_table(Table::Attributes).collect();
        let classes = superclasses_first(drafts, index, of_table(Table::Classes));
        let attribute_numbers = attributes
            .iter()
            .enumerate()
            .map(|(at, draft)| (RowId::attribute(*draft), at));
        let class_numbers = classes
            .iter()
            .enumerate()
            .map(|(at, draft)| (RowId::class(*draft), at));
        let numbers = attribute_numbers.chain(class_numbers).collect();
        Order {
            attributes,
            classes,
            numbers,
            is_part: false,
        }
    }
}

/// Classes in their order, but each behind its superclass; where superclasses go
/// round, the keeper will say so.
fn superclasses_first(
    drafts: &Drafts,
    index: &Index,
    classes: impl Iterator<Item = usize>,
) -> Vec<usize> {
    let mut order = Vec::new();
    let mut placed = BTreeSet::new();
    for class in classes {
        let mut chain = Vec::new();
        let mut next = Some(class);
        while let Some(class) = next.filter(|class| placed.insert(*class)) {
            chain.push(class);
            let above = drafts.classes[class].superclass.as_ref();
            let above = above.and_then(|above| index.find(Table::Classes, &above.name));
            next = above.map(|row| row.number);
        }
        order.extend(chain.into_iter().rev());
    }
    order
}

/// A class with its names looked up.
fn class(
    draft: &ClassDraft,
    index: &Index,
    order: &Order,
    left_out: &mut usize,
) -> Result<Class, String> {
    let find = |table, reference: &Reference| {
        let row = index
            .find(table, &reference.name)
            .ok_or_else(|| nowhere(draft, table, reference))?;
        Ok::<_, String>(order.numbers.get(&row).copied())
    };
    let number = |table, reference: &Reference| {
        let number = find(table, reference)?.unwrap_or(usize::MAX);
        u16::try_from(number).map_err(|_| format!("line {}: too many rows", reference.line))
    };
    let mut row = draft.row.clone();
    if let Some(superclass) = &draft.superclass {
        row.superclass = number(Table::Classes, superclass)?;
    }
    let naming = draft
        .naming
        .as_ref()
        .map(|naming| number(Table::Attributes, naming));
    row.naming = naming.transpose()?;
    for (list, reference) in &draft.lists {
        let is_there = match find(list.table(), reference) {
            Ok(number) => number.is_some(),
            Err(_) => !order.is_part,
        };
        if is_superior(list.tag()) && !is_there {
            *left_out += 1;
            continue;
        }
        row.list_mut(*list).insert(number(list.table(), reference)?);
    }
    Ok(row)
}

/// A name that is nowhere, told by entry and line.
fn nowhere(draft: &ClassDraft, table: Table, reference: &Reference) -> String {
    let Reference { name, word, line } = reference;
    let class = crate::words::shown(&draft.row.common.name);
    format!(
        "line {line}: entry `{class}`: {word}: no {} is named `{}`",
        table.word(),
        name.escape_default()
    )
}
