//! The lengths of the lent stores, and the tables their bytes stand for.

mod cells;
mod rows;

use crate::closure::Kept;
use crate::schema::{ATTRIBUTE_LIMIT, CLASS_LIMIT, Schema};
use crate::stores::{ATTRIBUTES, CLASSES, CLOSURE, Stores};
use cells::Cells;

/// Bytes of the attribute store's count.
const ATTRIBUTE_HEAD: usize = 2;
/// Bytes of one attribute row.
const ATTRIBUTE_ROW: usize = 189;
/// Bytes of the class store's count and of the zero beside it.
const CLASS_HEAD: usize = 2;
/// Bytes of one class row.
const CLASS_ROW: usize = 315;
/// Bytes of one class's three kept sets.
const KEPT_ROW: usize = 80;

/// The attribute store's length.
pub const ATTRIBUTE_STORE: usize = ATTRIBUTE_HEAD + ATTRIBUTE_LIMIT * ATTRIBUTE_ROW;
/// The class store's length.
pub const CLASS_STORE: usize = CLASS_HEAD + CLASS_LIMIT * CLASS_ROW;
/// The closure store's length.
pub const CLOSURE_STORE: usize = CLASS_LIMIT * KEPT_ROW;

/// "2: shape broken"
#[derive(Clone, Copy, Debug, PartialEq, Eq)]
pub struct BrokenShape;

/// What stores in shape stand for.
#[derive(Clone, Debug, PartialEq, Eq)]
pub struct Tables {
    /// The rows.
    pub schema: Schema,
    /// The kept sets of all 128 places, those of unused rows too.
    pub kept: Vec<Kept>,
}

/// The tables in stores that are long enough. "*Shape*: counts within limits,
/// every field one that the reader could have stored, unused rows zero; any
/// bytes pass for kept sets."
pub fn decode(stores: &Stores) -> Result<Tables, BrokenShape> {
    let schema = Schema {
        attributes: decode_attributes(stores.front(ATTRIBUTES))?,
        classes: decode_classes(stores.front(CLASSES))?,
    };
    let kept = stores.front(CLOSURE).chunks_exact(KEPT_ROW);
    Ok(Tables {
        schema,
        kept: kept.map(rows::decode_kept).collect(),
    })
}

fn decode_attributes(store: &[u8]) -> Result<Vec<crate::schema::Attribute>, BrokenShape> {
    let mut cells = Cells::new(store);
    let count = cells.number(ATTRIBUTE_HEAD) as usize;
    used_rows(cells.rest(), ATTRIBUTE_ROW, ATTRIBUTE_LIMIT, count)?
        .map(rows::decode_attribute)
        .collect()
}

fn decode_classes(store: &[u8]) -> Result<Vec<crate::schema::Class>, BrokenShape> {
    let mut cells = Cells::new(store);
    let count = cells.number(1) as usize;
    if cells.number(1) != 0 {
        return Err(BrokenShape);
    }
    used_rows(cells.rest(), CLASS_ROW, CLASS_LIMIT, count)?
        .map(rows::decode_class)
        .collect()
}

/// The rows below the count: "counts within limits", "unused rows zero".
fn used_rows(
    rows: &[u8],
    width: usize,
    limit: usize,
    count: usize,
) -> Result<impl Iterator<Item = &[u8]>, BrokenShape> {
    if count > limit {
        return Err(BrokenShape);
    }
    let (used, unused) = rows.split_at(count * width);
    if unused.iter().any(|byte| *byte != 0) {
        return Err(BrokenShape);
    }
    Ok(used.chunks_exact(width))
}

/// Puts the tables into stores that are long enough; what is left of each up to
/// its length is zero.
pub fn encode(tables: &Tables, stores: &mut Stores) {
    let schema = &tables.schema;
    let attribute_rows = schema.attributes.iter().map(rows::encode_attribute);
    let class_rows = schema.classes.iter().map(rows::encode_class);
    let kept_rows = tables.kept.iter().map(rows::encode_kept);

    let attribute_head = schema.next_attribute().to_be_bytes();
    let class_head = [schema.next_class() as u8, 0];
    let bytes = [
        filled(&attribute_head, attribute_rows),
        filled(&class_head, class_rows),
        filled(&[], kept_rows),
    ];
    for (store, mut bytes) in stores.fronts_mut().zip(bytes) {
        bytes.resize(store.len(), 0);
        store.copy_from_slice(&bytes);
    }
}

/// Head and rows.
fn filled(head: &[u8], rows: impl Iterator<Item = Vec<u8>>) -> Vec<u8> {
    let mut bytes = head.to_vec();
    rows.for_each(|row| bytes.extend(row));
    bytes
}
