//! Differences that no change can make.

use super::keys::{Key, keys, keys_of};
use crate::rows::{Attribute, Class, Common, List, RowId, Schema, Table};
use crate::words::{dotted, hex};

/// All differences between two schemas that no change can make, in words. The first
/// is the one that changes have led to, so that added rows are compared too.
pub fn fixed(old: &Schema, new: &Schema) -> Vec<String> {
    let mut words = Vec::new();
    for table in [Table::Attributes, Table::Classes] {
        for key in keys(old, table) {
            match (key.row(old), key.row(new)) {
                (Some(old_row), Some(new_row)) => words.extend(row(old, old_row, new, new_row)),
                (Some(old_row), None) => {
                    words.push(format!("{}: no change removes a row", old.told(old_row)))
                }
                _ => {}
            }
        }
        words.extend(order(old, new, table));
    }
    words
}

/// Rows that stand in another order.
fn order(old: &Schema, new: &Schema, table: Table) -> Option<String> {
    let common = |one: &Schema, other: &Schema| {
        let keys = keys(one, table).into_iter();
        keys.filter(|key| key.row(other).is_some())
            .collect::<Vec<Key>>()
    };
    let differs = common(old, new) != common(new, old);
    differs.then(|| format!("the {} rows stand in another order", table.word()))
}

/// What differs in one row: each field with what it is and what it would be.
fn row(old: &Schema, old_row: RowId, new: &Schema, new_row: RowId) -> Vec<String> {
    let pairs = fields(old, old_row).into_iter().zip(fields(new, new_row));
    let pairs =
        pairs.filter(|(before, after)| before.value != after.value || before.keys != after.keys);
    let told = old.told(old_row);
    let words = |(before, after): (Field, Field)| {
        let (name, before, after) = (before.name, before.told(old), after.told(new));
        format!("{told}: {name}: {before}, and would be {after}")
    };
    pairs.map(words).collect()
}

/// A field that no change alters: a value, or rows by their keys.
struct Field {
    name: &'static str,
    value: String,
    keys: Vec<Key>,
}

impl Field {
    fn value(name: &'static str, value: String) -> Field {
        Field {
            name,
            value,
            keys: Vec::new(),
        }
    }

    fn rows<'a>(
        name: &'static str,
        schema: &Schema,
        table: Table,
        rows: impl Iterator<Item = &'a u16>,
    ) -> Field {
        let mut keys = keys_of(schema, table, rows);
        keys.sort();
        Field {
            name,
            value: String::new(),
            keys,
        }
    }

    /// The field in words, rows by the names that they have in a schema.
    fn told(&self, schema: &Schema) -> String {
        let names: Vec<_> = self
            .keys
            .iter()
            .filter_map(|key| key.name(schema))
            .collect();
        match (self.value.as_str(), names.is_empty()) {
            ("", true) => "none".to_owned(),
            ("", false) => names.join(" "),
            (value, _) => value.to_owned(),
        }
    }
}

fn fields(schema: &Schema, row: RowId) -> Vec<Field> {
    let (attribute, class) = (
        schema.attributes.get(row.number),
        schema.classes.get(row.number),
    );
    let own = match row.table {
        Table::Attributes => attribute.map(attribute_fields),
        Table::Classes => class.map(|class| class_fields(schema, class)),
    };
    let common = schema.common(row).map(common_fields);
    common
        .into_iter()
        .flatten()
        .chain(own.into_iter().flatten())
        .collect()
}

fn common_fields(row: &Common) -> Vec<Field> {
    vec![
        Field::value("identifier", dotted(&row.arcs)),
        Field::value("systemFlags", row.flags.to_string()),
    ]
}

fn attribute_fields(row: &Attribute) -> Vec<Field> {
    let number = |number: Option<u32>| number.map(|number| number.to_string()).unwrap_or_default();
    let values = if row.single { "single" } else { "multi" };
    vec![
        Field::value("attributeSyntax", format!("2.5.5.{}", row.syntax)),
        Field::value("oMSyntax", row.om_syntax.to_string()),
        Field::value("oMObjectClass", hex(&row.object_class)),
        Field::value("values", values.to_owned()),
        Field::value("linkID", number(row.link)),
        Field::value("mAPIID", number(row.mapi)),
    ]
}

fn class_fields(schema: &Schema, row: &Class) -> Vec<Field> {
    let mut fields = vec![
        Field::value("category", row.category_word().to_owned()),
        Field::rows(
            "superclass",
            schema,
            Table::Classes,
            [row.superclass].iter(),
        ),
        Field::rows(
            "naming attribute",
            schema,
            Table::Attributes,
            row.naming.iter(),
        ),
    ];
    let lists = [
        List::Mandatory,
        List::FixedOptional,
        List::FixedAuxiliary,
        List::FixedSuperior,
    ];
    fields.extend(
        lists.map(|list| Field::rows(list.title(), schema, list.table(), row.list(list).iter())),
    );
    fields
}
