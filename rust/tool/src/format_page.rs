//! The fields of rows as docs/FORMAT.md has them, so that they are said once.

const PAGE: &str = include_str!("../../../docs/FORMAT.md");

/// A field of a row: a line of one of the page's tables.
pub struct RowField {
    /// Its tag.
    pub tag: u8,
    /// What the field is called.
    pub name: String,
    /// Which lengths it may have, in words.
    pub length: String,
    /// Whether every such row must have it.
    pub is_needed: bool,
    /// Which values it may have, in words.
    pub value: String,
}

/// The field with this tag in a row with that tag, 20 or 30.
pub fn row_field(row: u8, tag: u8) -> Option<RowField> {
    row_fields(row).into_iter().find(|field| field.tag == tag)
}

/// The fields that a row with this tag must have.
pub fn needed(row: u8) -> Vec<RowField> {
    let fields = row_fields(row).into_iter();
    fields.filter(|field| field.is_needed).collect()
}

/// All fields of a row with this tag: those of every row, then its own.
fn row_fields(row: u8) -> Vec<RowField> {
    let section = PAGE.split("## The fields of a row").nth(1);
    let section = section.and_then(|rest| rest.split("\n## ").next());
    let mut tables = section
        .unwrap_or_default()
        .split("\n| Tag | Field |")
        .skip(1);
    let common = tables.next().unwrap_or_default();
    let own = tables.nth(usize::from(row != 0x20)).unwrap_or_default();
    let mut fields: Vec<RowField> = Vec::new();
    for line in common.lines().chain(own.lines()) {
        let field = field(line, fields.last());
        fields.extend(field);
    }
    fields
}

/// The field that a line of a table is about; `the same` in it is what the field
/// before says there.
fn field(line: &str, before: Option<&RowField>) -> Option<RowField> {
    let mut cells = line.split('|').map(str::trim).skip(1);
    let same = |cell: &str, before: Option<&String>| match (cell, before) {
        ("the same", Some(before)) => before.clone(),
        _ => cell.to_owned(),
    };
    Some(RowField {
        tag: u8::from_str_radix(cells.next()?, 16).ok()?,
        name: cells.next()?.to_owned(),
        length: same(cells.next()?, before.map(|field| &field.length)),
        is_needed: cells.next()? == "yes",
        value: same(cells.next()?, before.map(|field| &field.value)),
    })
}

#[cfg(test)]
mod tests {
    use super::{needed, row_field};

    fn told(row: u8, tag: u8) -> Option<String> {
        row_field(row, tag).map(|field| format!("{}: {}", field.name, field.length))
    }

    #[test]
    fn fields_are_found_by_row_and_tag() {
        assert_eq!(told(0x20, 0x01).as_deref(), Some("display name: 0 to 64"));
        assert_eq!(told(0x30, 0x01), told(0x20, 0x01));
        assert_eq!(told(0x20, 0x0A).as_deref(), Some("rangeLower: 4"));
        assert_eq!(told(0x30, 0x0A), None);
        assert_eq!(told(0x30, 0x11).as_deref(), Some("superclass: 2"));
        assert_eq!(told(0x20, 0x11), None);
        let superiors = told(0x30, 0x19);
        let words = "open possible superiors: 2 for each entry";
        assert_eq!(superiors.as_deref(), Some(words));
        let value = |row, tag| row_field(row, tag).map(|field| field.value);
        assert_eq!(value(0x20, 0x0D).as_deref(), Some("not zero"));
        let words =
            "two's complement; not below rangeLower (rule 25), equal ends are a fixed length";
        assert_eq!(value(0x20, 0x0B).as_deref(), Some(words));
        let words = "class numbers below 128, each greater than the one before";
        assert_eq!(value(0x30, 0x19).as_deref(), Some(words));
        let tags: Vec<u8> = needed(0x30).iter().map(|field| field.tag).collect();
        assert_eq!(tags, [0x01, 0x02, 0x03, 0x04, 0x10, 0x11]);
    }
}
