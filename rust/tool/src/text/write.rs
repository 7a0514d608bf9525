//! Rows as lines of the text form.

use crate::rows::{Attribute, BASE, Class, Common, List, RowId, Schema, Table};
use crate::words::{dotted, guid_text, hex};

/// A schema as text.
pub fn written(schema: &Schema) -> String {
    let blocks: Vec<_> = schema.rows().map(|row| block(schema, row)).collect();
    blocks.join("\n")
}

/// A row's head and lines, as text.
pub fn block(schema: &Schema, row: RowId) -> String {
    let lines = lines(schema, row)
        .into_iter()
        .map(|line| format!("  {line}\n"));
    head(schema, row) + "\n" + &lines.collect::<String>()
}

/// A row's first line.
pub fn head(schema: &Schema, row: RowId) -> String {
    let arcs = schema.common(row).map(|common| dotted(&common.arcs));
    format!(
        "{} {} {}",
        row.table.word(),
        schema.name(row),
        arcs.unwrap_or_default()
    )
}

/// A row's other lines, each word in one line.
pub fn lines(schema: &Schema, row: RowId) -> Vec<String> {
    let own = match row.table {
        Table::Attributes => schema.attributes.get(row.number).map(attribute_lines),
        Table::Classes => schema
            .classes
            .get(row.number)
            .map(|class| class_lines(schema, class)),
    };
    let common = schema.common(row).map(common_lines);
    common
        .into_iter()
        .flatten()
        .chain(own.into_iter().flatten())
        .collect()
}

fn common_lines(row: &Common) -> Vec<String> {
    let mut lines = vec![format!("guid {}", guid_text(&row.guid))];
    if row.flags & BASE != 0 {
        lines.push("base".to_owned());
    }
    if row.flags & !BASE != 0 {
        lines.push(format!("flags {}", row.flags & !BASE));
    }
    if row.defunct {
        lines.push("defunct".to_owned());
    }
    lines
}

fn attribute_lines(row: &Attribute) -> Vec<String> {
    let mut lines = vec![format!("syntax {} {}", row.syntax, row.om_syntax)];
    if !row.object_class.is_empty() {
        lines.push(format!("object {}", hex(&row.object_class)));
    }
    if row.single {
        lines.push("single".to_owned());
    }
    let ends = [("lower", row.lower), ("upper", row.upper)];
    let ends = ends.map(|(word, end)| (word, end.map(i64::from)));
    let ids = [("link", row.link), ("mapi", row.mapi)];
    let ids = ids.map(|(word, id)| (word, id.map(i64::from)));
    let numbers = ends.into_iter().chain(ids);
    lines.extend(numbers.filter_map(|(word, number)| Some(format!("{word} {}", number?))));
    lines
}

fn class_lines(schema: &Schema, row: &Class) -> Vec<String> {
    let category = row.category_word().trim_end_matches(" class");
    let superclass = schema.name(RowId::class(row.superclass));
    let mut lines = vec![category.to_owned(), format!("under {superclass}")];
    if let Some(naming) = row.naming {
        lines.push(format!("naming {}", schema.name(RowId::attribute(naming))));
    }
    for list in List::ALL {
        let table = list.table();
        let name = |number: &u16| {
            schema.name(RowId {
                table,
                number: usize::from(*number),
            })
        };
        let names: Vec<_> = row.list(list).iter().map(name).collect();
        if !names.is_empty() {
            lines.push(format!("{} {}", list.word(), names.join(" ")));
        }
    }
    lines
}
