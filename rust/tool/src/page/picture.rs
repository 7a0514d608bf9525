//! The classes as a picture: a tree from left to right, auxiliary classes in the
//! boxes of those that list them.

use super::html::{anchor, escaped};
use super::layout::{LINE, Layout, NAME, Spot, auxiliaries};
use crate::rows::{BASE, RowId, Schema};

/// The picture, in a frame that can be moved sideways, and what its signs mean.
pub fn picture(schema: &Schema) -> String {
    let layout = Layout::of(schema);
    let lines: String = (1..schema.classes.len())
        .map(|class| line(schema, &layout, class))
        .collect();
    let boxes: String = (0..schema.classes.len())
        .map(|class| drawn(schema, &layout, class))
        .collect();
    let (width, height) = (layout.width + 4, layout.height + 4);
    format!(
        r#"<div class="wide"><svg width="{width}" height="{height}" viewBox="-2 -2 {width} {height}" role="group" aria-label="The classes under their superclasses">
{lines}{boxes}</svg></div>
<p class="key"><span class="structural">structural</span> <span class="abstract">abstract</span> <span class="auxiliary">auxiliary</span> <span class="eightyeight">88 class</span> <span class="base">came with the server</span> <span class="defunct">no longer in use</span> + an auxiliary class that it lists</p>
"#
    )
}

/// The line from a class to its superclass.
fn line(schema: &Schema, layout: &Layout, class: usize) -> String {
    let above = usize::from(schema.classes[class].superclass);
    let (Some(from), Some(to)) = (layout.spots.get(above), layout.spots.get(class)) else {
        return String::new();
    };
    let bend = to.x - 22;
    format!(
        "<path d=\"M{} {}H{bend}V{}H{}\"/>\n",
        from.x + from.width,
        from.middle,
        to.middle,
        to.x
    )
}

/// The box of a class, leading to its section.
fn drawn(schema: &Schema, layout: &Layout, class: usize) -> String {
    let row = &schema.classes[class];
    let Spot {
        x,
        middle,
        width,
        height,
    } = layout.spots[class];
    let top = middle - height / 2;
    let mut kinds = vec![category_class(row.category)];
    if row.common.flags & BASE != 0 {
        kinds.push("base");
    }
    if row.common.defunct {
        kinds.push("defunct");
    }
    let beside = auxiliaries(schema, class).into_iter().enumerate();
    let beside: String = beside
        .map(|(at, row)| label(schema, row, x + 14, top + NAME + 11 + LINE * at, "+ "))
        .collect();
    let name = label(schema, RowId::class(class), x + 12, top + 18, "");
    let kinds = kinds.join(" ");
    format!(
        "<g class=\"{kinds}\"><rect x=\"{x}\" y=\"{top}\" width=\"{width}\" height=\"{height}\" rx=\"5\"/>{name}{beside}</g>\n"
    )
}

fn label(schema: &Schema, row: RowId, x: usize, y: usize, sign: &str) -> String {
    let kind = if sign.is_empty() { "name" } else { "beside" };
    let name = escaped(&schema.name(row));
    format!(
        "<a href=\"#{}\"><text class=\"{kind}\" x=\"{x}\" y=\"{y}\">{sign}{name}</text></a>",
        anchor(row)
    )
}

/// The style of a category.
pub fn category_class(category: u8) -> &'static str {
    let kinds = ["eightyeight", "structural", "abstract", "auxiliary"];
    kinds.get(usize::from(category)).unwrap_or(&"structural")
}
