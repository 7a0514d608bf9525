//! "The program lists a sheet's classes, defunct too"

use crate::answer::Answer;
use crate::calls::loaded;
use crate::closure::Kept;
use crate::layout::Tables;
use crate::schema::Class;

/// "at most 32,768 bytes, else `too long`"
pub const LISTED_LIMIT: usize = 32_768;

/// The program's text; every line ends with a line feed (R85).
pub fn listing(sheet: &[u8]) -> Vec<u8> {
    if sheet.len() > LISTED_LIMIT {
        return b"too long\n".to_vec();
    }
    match loaded(sheet) {
        Ok(tables) => classes(&tables),
        Err(refusal) => refused(refusal),
    }
}

/// "A refused sheet prints one line, single spaces: `refused`, number, table,
/// place."
fn refused(answer: Answer) -> Vec<u8> {
    let Answer {
        number,
        table,
        place,
    } = answer;
    format!("refused {number} {table} {place}\n").into_bytes()
}

fn classes(tables: &Tables) -> Vec<u8> {
    let mut text = b"no name oid must may\n".to_vec();
    let rows = tables.schema.classes.iter().zip(&tables.kept);
    for (number, (class, kept)) in rows.enumerate() {
        text.extend(line(number, class, kept));
    }
    text
}

/// ""must" is the number of attributes in the kept mandatory set, "may" in the
/// optional one"
fn line(number: usize, class: &Class, kept: &Kept) -> Vec<u8> {
    let arcs: Vec<String> = class.common.arcs.iter().map(u32::to_string).collect();
    let must = kept.mandatory.len();
    let may = kept.optional.len();
    let mut line = format!("{number} ").into_bytes();
    line.extend(&class.common.name);
    line.extend(format!(" {} {must} {may}\n", arcs.join(".")).into_bytes());
    line
}
