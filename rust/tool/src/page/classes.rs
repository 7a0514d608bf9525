//! The section of each class: what it demands and allows, and whence.

use super::html::{anchor, escaped, link, links, marks, table};
use super::picture::category_class;
use crate::kept::Kept;
use crate::rows::{List, RowId, Schema};
use crate::through::{Coming, allowed, demanded};
use crate::words::{dotted, guid_text};
use keeper::Stores;

/// A class with all that is to be known of it.
pub fn section(schema: &Schema, stores: &Stores, class: usize) -> String {
    let row = &schema.classes[class];
    let id = RowId::class(class);
    let name = escaped(&schema.name(id));
    let demanded = demanded(schema, stores, class);
    let allowed = allowed(schema, stores, class);
    let attributes = demanded
        .iter()
        .chain(&allowed)
        .map(|coming| schema.name(coming.attribute));
    let words: Vec<_> = [name.clone(), dotted(&row.common.arcs)]
        .into_iter()
        .chain(attributes)
        .collect();
    let found = escaped(&words.join(" ").to_lowercase());
    let (kind, category, marks) = (
        category_class(row.category),
        row.category_word(),
        marks(&row.common),
    );
    let facts = facts(schema, stores, class);
    let demands = coming(schema, "Demands", &demanded);
    let allows = coming(schema, "Allows", &allowed);
    format!(
        "<article id=\"{}\" data-find=\"{found}\">\n<h3>{name} <span class=\"mark {kind}\">{category}</span>{marks}</h3>\n{facts}<div class=\"sides\">\n{demands}{allows}</div>\n</article>\n",
        anchor(id)
    )
}

/// What the class says of itself, and which classes it reaches.
fn facts(schema: &Schema, stores: &Stores, class: usize) -> String {
    let row = &schema.classes[class];
    let mut facts = vec![
        ("Identifier", dotted(&row.common.arcs)),
        ("schemaIDGUID", guid_text(&row.common.guid)),
        ("Superclass", link(schema, RowId::class(row.superclass))),
    ];
    if let Some(naming) = row.naming {
        facts.push(("Named by", link(schema, RowId::attribute(naming))));
    }
    let lists = [
        List::FixedAuxiliary,
        List::OpenAuxiliary,
        List::FixedSuperior,
        List::OpenSuperior,
    ];
    for list in lists.into_iter().filter(|list| !row.list(*list).is_empty()) {
        let rows = row.list(list).iter().map(|number| RowId::class(*number));
        facts.push((list.title(), links(schema, rows)));
    }
    let reached = Kept::Reached
        .of(stores, class)
        .into_iter()
        .map(RowId::class);
    facts.push(("Reaches", links(schema, reached)));
    let facts: String = facts
        .iter()
        .map(|(name, value)| format!("<dt>{name}</dt><dd>{value}</dd>\n"))
        .collect();
    format!("<dl>\n{facts}</dl>\n")
}

/// Attributes, each with the classes through which it comes.
fn coming(schema: &Schema, word: &str, attributes: &[Coming]) -> String {
    if attributes.is_empty() {
        return format!("<div><h4>{word} nothing</h4></div>\n");
    }
    let row = |coming: &Coming| {
        let attribute = link(schema, coming.attribute);
        let through = links(
            schema,
            coming.through.iter().map(|class| RowId::class(*class)),
        );
        format!("<tr><th>{attribute}</th><td>{through}</td></tr>\n")
    };
    let rows: String = attributes.iter().map(row).collect();
    format!(
        "<div><h4>{word} {}</h4>\n{}</div>\n",
        attributes.len(),
        table(&["Attribute", "Through"], &rows)
    )
}
