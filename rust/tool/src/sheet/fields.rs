//! Bytes as tagged fields.

/// One field: a tag, two bytes of length, the value.
#[derive(Clone, Copy, Debug, PartialEq, Eq)]
pub struct Field<'a> {
    /// The offset of the tag.
    pub at: usize,
    /// The tag.
    pub tag: u8,
    /// The length that the field announces.
    pub length: usize,
    /// The value: shorter than the length where the bytes end before.
    pub value: &'a [u8],
}

impl Field<'_> {
    /// Whether the value is all there.
    pub fn is_whole(&self) -> bool {
        self.value.len() == self.length
    }

    /// The offset of the value.
    pub fn inside(&self) -> usize {
        self.at + 3
    }

    /// The offset behind the value.
    pub fn end(&self) -> usize {
        self.inside() + self.value.len()
    }
}

/// The fields of bytes that begin at an offset; one or two bytes at the end are
/// no field and are left out.
pub fn fields(bytes: &[u8], offset: usize) -> impl Iterator<Item = Field<'_>> {
    let mut at = 0;
    std::iter::from_fn(move || {
        let head = bytes.get(at..at + 3)?;
        let length = usize::from(u16::from_be_bytes([head[1], head[2]]));
        let end = bytes.len().min(at + 3 + length);
        let value = &bytes[at + 3..end];
        let field = Field {
            at: offset + at,
            tag: head[0],
            length,
            value,
        };
        at = end;
        Some(field)
    })
}
