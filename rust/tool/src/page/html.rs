//! Pieces of HTML.

use crate::rows::{BASE, Common, RowId, Schema, Table};

/// A text with what HTML would read as its own written out.
pub fn escaped(text: &str) -> String {
    let mut html = String::new();
    for letter in text.chars() {
        match letter {
            '&' => html.push_str("&amp;"),
            '<' => html.push_str("&lt;"),
            '>' => html.push_str("&gt;"),
            '"' => html.push_str("&quot;"),
            '\'' => html.push_str("&#39;"),
            letter if letter.is_control() => html.push(' '),
            letter => html.push(letter),
        }
    }
    html
}

/// The mark of a row's place on the page.
pub fn anchor(row: RowId) -> String {
    match row.table {
        Table::Attributes => format!("a{}", row.number),
        Table::Classes => format!("c{}", row.number),
    }
}

/// A row's name, leading to its place.
pub fn link(schema: &Schema, row: RowId) -> String {
    format!(
        r##"<a href="#{}">{}</a>"##,
        anchor(row),
        escaped(&schema.name(row))
    )
}

/// Names of rows with commas between them, each leading to its place.
pub fn links(schema: &Schema, rows: impl Iterator<Item = RowId>) -> String {
    let links: Vec<_> = rows.map(|row| link(schema, row)).collect();
    links.join(", ")
}

/// What marks a row: that it came with the server, that it is no longer in use.
pub fn marks(row: &Common) -> String {
    let mut marks = String::new();
    if row.flags & BASE != 0 {
        marks.push_str(r#" <span class="mark">base</span>"#);
    }
    if row.defunct {
        marks.push_str(r#" <span class="mark gone">defunct</span>"#);
    }
    marks
}

/// A table in a frame that can be moved sideways where it is too wide.
pub fn table(heads: &[&str], rows: &str) -> String {
    let heads: String = heads
        .iter()
        .map(|head| format!("<th>{head}</th>"))
        .collect();
    format!(
        "<div class=\"wide\"><table>\n<thead><tr>{heads}</tr></thead>\n<tbody>\n{rows}</tbody>\n</table></div>\n"
    )
}
