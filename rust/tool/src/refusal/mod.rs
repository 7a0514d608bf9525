//! Refusals in words. The keeper has refused; what is looked up here is only
//! which rows it speaks of.

mod asked;
mod named;
mod rules;

pub use asked::asked;
pub use named::named;
pub use rules::broken;

use crate::numbers;
use crate::rows::{RowId, Schema, Table};
use crate::sheet::{decode, located, row_at};
use crate::text::Lines;
use keeper::Answer;

/// The number with its name and what it speaks of, in one line.
pub fn headline(number: u64, detail: &str) -> String {
    match detail {
        "" => numbers::named(number),
        _ => format!("{}: {detail}", numbers::named(number)),
    }
}

/// Why a load refused a sheet: the number, the rows, what it means and what can
/// be done.
pub fn load(name: &str, sheet: &[u8], answer: Answer, lines: Option<&Lines>) -> String {
    let mut detail = load_detail(sheet, answer);
    let first = match detail.is_empty() {
        true => String::new(),
        false => detail.remove(0),
    };
    let rest: String = detail.iter().map(|line| format!("  {line}\n")).collect();
    let place = place_of(sheet, answer, lines);
    let headline = headline(answer.number, &first);
    format!(
        "{name}: refused{place}\n{headline}\n{rest}{}",
        advice(answer.number)
    )
}

/// What a number means and what can be done about it, indented.
pub fn advice(number: u64) -> String {
    let Some(section) = numbers::section_of(number) else {
        return String::new();
    };
    let meaning = numbers::wrapped(&section.meaning, "  ", 80);
    meaning + &numbers::wrapped(&format!("Do: {}", section.advice), "  ", 80)
}

/// The line of the row that an answer names, where the schema came as lines.
fn place_of(sheet: &[u8], answer: Answer, lines: Option<&Lines>) -> String {
    let place = usize::try_from(answer.place).unwrap_or(usize::MAX);
    let row = match answer.number {
        4 => row_at(sheet, place),
        6 => excess(answer),
        _ => row_of(answer),
    };
    let line = row.and_then(|row| lines?.of(row));
    line.map_or_else(String::new, |line| format!(", row at line {line}"))
}

/// The row that an answer names.
fn row_of(answer: Answer) -> Option<RowId> {
    let table = Table::of(answer.table).filter(|_| answer.number >= 12)?;
    let number = usize::try_from(answer.place).ok()?;
    Some(RowId { table, number })
}

fn load_detail(sheet: &[u8], answer: Answer) -> Vec<String> {
    let place = usize::try_from(answer.place).unwrap_or(usize::MAX);
    match (answer.number, row_of(answer)) {
        (4, _) => located(sheet, place),
        (6, _) => vec![full(&decode(sheet), answer)],
        (number, Some(row)) => vec![broken(number, &decode(sheet), row)],
        _ => Vec::new(),
    }
}

/// More rows than there is room for, and the first that has none.
fn full(schema: &Schema, answer: Answer) -> String {
    let table = Table::of(answer.table).unwrap_or(Table::Attributes);
    let count = schema.rows_of(table).count();
    let word = match table {
        Table::Attributes => "attributes",
        Table::Classes => "classes",
    };
    let first = excess(answer)
        .map(|row| schema.told(row))
        .unwrap_or_default();
    format!(
        "{count} {word}, and there is room for {}: the first without is {first}",
        answer.place
    )
}

/// The first row that has no room.
fn excess(answer: Answer) -> Option<RowId> {
    let table = Table::of(answer.table).filter(|_| answer.number == 6)?;
    let number = usize::try_from(answer.place).ok()?;
    Some(RowId { table, number })
}
