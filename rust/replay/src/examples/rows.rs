//! Rows, sheets and changes put together by hand, field by field, without the
//! reference's own writer.

/// The tag of an attribute row.
pub const ATTRIBUTE: u8 = 0x20;
/// The tag of a class row.
pub const CLASS: u8 = 0x30;

/// The heading, "field 01 holding 01".
pub const HEADING: [u8; 4] = [0x01, 0x00, 0x01, 0x01];

/// "one byte tag, two bytes length, value"
pub fn field(tag: u8, value: &[u8]) -> Vec<u8> {
    let length = (value.len() as u16).to_be_bytes();
    [&[tag], &length[..], value].concat()
}

/// A row as the fields that it has, in the order in which they are written.
#[derive(Clone)]
pub struct Row {
    tag: u8,
    fields: Vec<(u8, Vec<u8>)>,
}

impl Row {
    /// The smallest sound attribute row: a string, of its own name, identifier
    /// and GUID.
    pub fn attribute(number: u16) -> Row {
        Row::common(ATTRIBUTE, 'a', number)
            .with(0x06, &[12])
            .with(0x07, &[64])
    }

    /// The smallest sound class row: abstract for row 0, else structural, under
    /// row 0.
    pub fn class(number: u16) -> Row {
        let category = if number == 0 { 2 } else { 1 };
        Row::common(CLASS, 'c', number)
            .with(0x10, &[category])
            .with(0x11, &[0, 0])
    }

    fn common(tag: u8, letter: char, number: u16) -> Row {
        let row = Row {
            tag,
            fields: Vec::new(),
        };
        let guid = u128::from(tag) << 64 | u128::from(number);
        row.named(&format!("{letter}{number}"))
            .arcs(&[2, u32::from(tag), u32::from(number)])
            .with(0x03, &guid.to_be_bytes())
            .flags(0)
    }

    /// A row that can be read, and no more: without name and identifier.
    pub fn bare(tag: u8) -> Row {
        let row = match tag {
            CLASS => Row::class(0),
            _ => Row::attribute(0),
        };
        row.named("").arcs(&[])
    }

    /// With a field at its place in rising order, instead of one that is there.
    pub fn with(self, tag: u8, value: &[u8]) -> Row {
        let mut row = self.without(tag);
        let place = row.fields.iter().filter(|(other, _)| *other < tag).count();
        row.fields.insert(place, (tag, value.to_vec()));
        row
    }

    /// Without a field.
    pub fn without(mut self, tag: u8) -> Row {
        self.fields.retain(|(other, _)| *other != tag);
        self
    }

    /// With a field at the end, whatever its tag.
    pub fn then(mut self, tag: u8, value: &[u8]) -> Row {
        self.fields.push((tag, value.to_vec()));
        self
    }

    /// With this name.
    pub fn named(self, name: &str) -> Row {
        self.with(0x01, name.as_bytes())
    }

    /// With this identifier.
    pub fn arcs(self, arcs: &[u32]) -> Row {
        let bytes: Vec<u8> = arcs.iter().flat_map(|arc| arc.to_be_bytes()).collect();
        self.with(0x02, &bytes)
    }

    /// With this GUID.
    pub fn guid(self, guid: u128) -> Row {
        self.with(0x03, &guid.to_be_bytes())
    }

    /// With these systemFlags.
    pub fn flags(self, flags: u32) -> Row {
        self.with(0x04, &flags.to_be_bytes())
    }

    /// Defunct.
    pub fn defunct(self) -> Row {
        self.with(0x05, &[])
    }

    /// Of this attributeSyntax and oMSyntax.
    pub fn syntax(self, syntax: u8, om_syntax: u8) -> Row {
        self.with(0x06, &[syntax]).with(0x07, &[om_syntax])
    }

    /// Single-valued.
    pub fn single(self) -> Row {
        self.with(0x09, &[])
    }

    /// With a number of four bytes: an end of the range, linkID or mAPIID.
    pub fn number(self, tag: u8, number: u32) -> Row {
        self.with(tag, &number.to_be_bytes())
    }

    /// With both ends of the range.
    pub fn range(self, lower: i32, upper: i32) -> Row {
        self.number(0x0A, lower as u32).number(0x0B, upper as u32)
    }

    /// With this linkID.
    pub fn link(self, number: u32) -> Row {
        self.number(0x0C, number)
    }

    /// With this linkID, and of 2.5.5.1, which every linked attribute may have.
    pub fn linked(self, number: u32) -> Row {
        let names = self.syntax(1, 127);
        names
            .with(0x08, b"\x2B\x0C\x02\x87\x73\x1C\x00\x85\x4A")
            .link(number)
    }

    /// With this mAPIID.
    pub fn mapi(self, number: u32) -> Row {
        self.number(0x0D, number)
    }

    /// Of this category.
    pub fn category(self, category: u8) -> Row {
        self.with(0x10, &[category])
    }

    /// Under this class.
    pub fn under(self, superclass: u16) -> Row {
        self.with(0x11, &superclass.to_be_bytes())
    }

    /// With this rDNAttID.
    pub fn naming(self, attribute: u16) -> Row {
        self.with(0x12, &attribute.to_be_bytes())
    }

    /// With this set, one of 13 to 19.
    pub fn set(self, tag: u8, entries: &[u16]) -> Row {
        let bytes: Vec<u8> = entries.iter().flat_map(|n| n.to_be_bytes()).collect();
        self.with(tag, &bytes)
    }

    /// The row's value.
    pub fn value(&self) -> Vec<u8> {
        let fields = self.fields.iter();
        fields.flat_map(|(tag, value)| field(*tag, value)).collect()
    }

    /// The value of a field, empty where there is none.
    pub fn field_value(&self, tag: u8) -> Vec<u8> {
        let found = self.fields.iter().find(|(other, _)| *other == tag);
        found.map(|(_, value)| value.clone()).unwrap_or_default()
    }

    /// The length of a field with its head, 0 where there is none.
    pub fn field_length(&self, tag: u8) -> u64 {
        let found = self.fields.iter().find(|(other, _)| *other == tag);
        found.map_or(0, |(_, value)| 3 + value.len() as u64)
    }

    /// The length of the last field with its head.
    pub fn last_field(&self) -> u64 {
        self.fields
            .last()
            .map_or(0, |(tag, _)| self.field_length(*tag))
    }

    /// The row as a field of a sheet.
    pub fn bytes(&self) -> Vec<u8> {
        field(self.tag, &self.value())
    }

    /// The row's length as a field of a sheet.
    pub fn length(&self) -> u64 {
        self.bytes().len() as u64
    }

    /// The change that adds the row: 40 or 41.
    pub fn added(&self) -> Vec<u8> {
        let tag = if self.tag == CLASS { 0x41 } else { 0x40 };
        field(tag, &self.value())
    }
}

/// Rows one after the other.
pub fn rows(rows: &[Row]) -> Vec<u8> {
    rows.iter().flat_map(Row::bytes).collect()
}

/// A sheet: the heading and rows.
pub fn sheet(of: &[Row]) -> Vec<u8> {
    [&HEADING[..], &rows(of)].concat()
}

/// A change of a row that is there: its tag, the target, and what comes after.
pub fn alter(tag: u8, target: u16, rest: &[u8]) -> Vec<u8> {
    let target = field(0x20, &target.to_be_bytes());
    field(tag, &[&target[..], rest].concat())
}

/// 42, with the ends that are given.
pub fn range(target: u16, lower: Option<i32>, upper: Option<i32>) -> Vec<u8> {
    let end = |tag, end: Option<i32>| end.map_or(vec![], |end| field(tag, &end.to_be_bytes()));
    alter(0x42, target, &[end(0x0A, lower), end(0x0B, upper)].concat())
}

/// 43 or 44.
pub fn rename(tag: u8, target: u16, name: &[u8]) -> Vec<u8> {
    alter(tag, target, &field(0x01, name))
}

/// 49 or 4A.
pub fn entry(tag: u8, target: u16, list: u8, entry: u16) -> Vec<u8> {
    let fields = [field(0x21, &[list]), field(0x22, &entry.to_be_bytes())];
    alter(tag, target, &fields.concat())
}
