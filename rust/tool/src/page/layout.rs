//! Where each class stands in the picture of the tree.

use crate::commands::children;
use crate::rows::{List, RowId, Schema};

/// The height of a name, in units of the picture.
pub const NAME: usize = 26;
/// The height of an auxiliary's line below it.
pub const LINE: usize = 15;
/// The space between boxes, and between columns.
const GAP: usize = 10;
const ASIDE: usize = 44;

/// A class in the picture.
#[derive(Clone, Debug, Default, PartialEq, Eq)]
pub struct Spot {
    /// The left edge.
    pub x: usize,
    /// The middle, counted from above.
    pub middle: usize,
    /// The width of the box.
    pub width: usize,
    /// The height of the box.
    pub height: usize,
}

/// All classes of an accepted schema, and how wide and high the picture is.
pub struct Layout {
    /// The classes, by number.
    pub spots: Vec<Spot>,
    /// The whole width.
    pub width: usize,
    /// The whole height.
    pub height: usize,
}

/// The auxiliary classes that a class lists itself.
pub fn auxiliaries(schema: &Schema, class: usize) -> Vec<RowId> {
    let row = &schema.classes[class];
    let lists = [List::FixedAuxiliary, List::OpenAuxiliary];
    lists
        .iter()
        .flat_map(|list| row.list(*list).iter().map(|number| RowId::class(*number)))
        .collect()
}

impl Layout {
    /// Columns by depth, each class beside the middle of those under it.
    pub fn of(schema: &Schema) -> Layout {
        let mut layout = Layout {
            spots: vec![Spot::default(); schema.classes.len()],
            width: 0,
            height: 0,
        };
        for class in 0..schema.classes.len() {
            layout.measure(schema, class);
        }
        layout.columns(schema);
        if !schema.classes.is_empty() {
            layout.height = layout.place(schema, 0, 0);
        }
        layout
    }

    fn measure(&mut self, schema: &Schema, class: usize) {
        let beside = auxiliaries(schema, class);
        let letters = |row: RowId| schema.name(row).chars().count();
        let longest = beside
            .iter()
            .map(|row| 8 * letters(*row) + 34)
            .max()
            .unwrap_or(0);
        let spot = &mut self.spots[class];
        spot.width = longest.max(10 * letters(RowId::class(class)) + 24);
        spot.height = NAME + LINE * beside.len() + if beside.is_empty() { 0 } else { 4 };
    }

    /// The left edges: a class stands right of the widest of the column before.
    fn columns(&mut self, schema: &Schema) {
        let mut depths: Vec<usize> = Vec::new();
        for (class, row) in schema.classes.iter().enumerate() {
            let above = depths
                .get(usize::from(row.superclass))
                .map_or(0, |depth| depth + 1);
            depths.push(if class == 0 { 0 } else { above });
        }
        let deepest = depths.iter().max().copied().unwrap_or(0);
        let mut x = 0;
        for depth in 0..=deepest {
            let column = depths
                .iter()
                .enumerate()
                .filter(|(_, at)| **at == depth)
                .map(|(class, _)| class);
            let column: Vec<usize> = column.collect();
            let widest = column
                .iter()
                .map(|class| self.spots[*class].width)
                .max()
                .unwrap_or(0);
            for class in column {
                self.spots[class].x = x;
                self.width = self.width.max(x + widest);
            }
            x += widest + ASIDE;
        }
    }

    /// Places a class and all under it from a height down; how much they take. A
    /// box stays within that, also where those under it have their middle near an
    /// edge.
    fn place(&mut self, schema: &Schema, class: usize, top: usize) -> usize {
        let own = self.spots[class].height + GAP;
        let children = children(schema, class);
        let mut below = top;
        for child in &children {
            below += self.place(schema, *child, below);
        }
        let taken = (below - top).max(own);
        let spare = top + taken - below;
        for child in &children {
            self.shift(schema, *child, spare / 2);
        }
        let middle = |child: &usize| self.spots[*child].middle;
        let ends = children
            .first()
            .map(middle)
            .zip(children.last().map(middle));
        let middle = ends.map_or(top, |(first, last)| (first + last) / 2);
        self.spots[class].middle = middle.clamp(top + own / 2, top + taken - own / 2);
        taken
    }

    fn shift(&mut self, schema: &Schema, class: usize, by: usize) {
        self.spots[class].middle += by;
        for child in children(schema, class) {
            self.shift(schema, child, by);
        }
    }
}
