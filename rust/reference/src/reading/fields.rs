//! "Tagged fields: one byte tag, two bytes length, value; numbers most
//! significant byte first."

use crate::big_endian::number;
use std::collections::BTreeMap;

/// "4: sheet or change unreadable; place is the byte offset"
#[derive(Clone, Copy, Debug, PartialEq, Eq)]
pub struct Unreadable {
    /// The byte offset.
    pub place: usize,
}

/// Carries the lent bytes, the place of the next field, and the end of the
/// value being read.
#[derive(Clone, Copy)]
pub struct Reader<'a> {
    whole: &'a [u8],
    place: usize,
    end: usize,
}

/// One whole field.
pub struct Field<'a> {
    /// Its tag.
    pub tag: u8,
    /// Its tag's offset.
    pub at: usize,
    /// Its value.
    pub value: &'a [u8],
    inside: Reader<'a>,
}

impl<'a> Reader<'a> {
    /// At the start of the whole sheet or change.
    pub fn new(whole: &'a [u8]) -> Self {
        Reader {
            whole,
            place: 0,
            end: whole.len(),
        }
    }

    /// The offset where the next field begins.
    pub fn place(&self) -> usize {
        self.place
    }

    /// The tag of the next field, or nothing at the end of the value.
    pub fn tag(&self) -> Option<u8> {
        self.whole[self.place..self.end].first().copied()
    }

    /// The next field. Leftover bytes too few for a header, and a field that
    /// runs past the end of the value it stands in, are told where they begin.
    pub fn field(&mut self) -> Result<Field<'a>, Unreadable> {
        let at = self.place;
        let (tag, length) = match self.whole[at..self.end] {
            [tag, high, low, ..] => (tag, usize::from(u16::from_be_bytes([high, low]))),
            _ => return Err(Unreadable { place: at }),
        };
        let start = at + 3;
        if length > self.end - start {
            return Err(Unreadable { place: at });
        }
        self.place = start + length;
        Ok(self.whole_field(tag, at))
    }

    /// The field from `at` up to the present place.
    fn whole_field(&self, tag: u8, at: usize) -> Field<'a> {
        let inside = Reader {
            whole: self.whole,
            place: at + 3,
            end: self.place,
        };
        Field {
            tag,
            at,
            value: &self.whole[inside.place..inside.end],
            inside,
        }
    }
}

impl<'a> Field<'a> {
    /// A reader of the fields in this field's value.
    pub fn inside(&self) -> Reader<'a> {
        self.inside
    }

    /// This field cannot be accepted: told "by its tag's offset".
    pub fn refused(&self) -> Unreadable {
        Unreadable { place: self.at }
    }
}

/// A field that may or must stand in a value.
pub struct Slot {
    /// Its tag.
    pub tag: u8,
    /// Whether it must stand there.
    pub required: bool,
    /// Which values are readable.
    pub accepts: fn(&[u8]) -> bool,
}

/// A field that must stand there.
pub const fn required(tag: u8, accepts: fn(&[u8]) -> bool) -> Slot {
    Slot {
        tag,
        required: true,
        accepts,
    }
}

/// A field that may stand there.
pub const fn optional(tag: u8, accepts: fn(&[u8]) -> bool) -> Slot {
    Slot {
        tag,
        required: false,
        accepts,
    }
}

/// The values found, by their tags.
pub struct Fields<'a> {
    found: BTreeMap<u8, &'a [u8]>,
}

impl<'a> Fields<'a> {
    /// Reads a whole value. A field is accepted if it is in the list, after
    /// the last one accepted (R2), and its value is readable: "Number 4 tells
    /// the first field that cannot be accepted (the innermost; out of order
    /// counts) by its tag's offset; a missing field, where the rest of its
    /// value is sound, by the end of that value".
    pub fn read<'s>(
        mut reader: Reader<'a>,
        slots: impl IntoIterator<Item = &'s Slot>,
    ) -> Result<Fields<'a>, Unreadable> {
        let slots: Vec<&Slot> = slots.into_iter().collect();
        let mut still_open = slots.iter();
        let mut found = BTreeMap::new();
        while reader.tag().is_some() {
            let field = reader.field()?;
            let slot = still_open.find(|slot| slot.tag == field.tag);
            if !slot.is_some_and(|slot| (slot.accepts)(field.value)) {
                return Err(field.refused());
            }
            found.insert(field.tag, field.value);
        }
        let missing = |slot: &&Slot| slot.required && !found.contains_key(&slot.tag);
        if slots.iter().any(missing) {
            return Err(Unreadable { place: reader.end });
        }
        Ok(Fields { found })
    }

    /// Whether the field stands there.
    pub fn has(&self, tag: u8) -> bool {
        self.found.contains_key(&tag)
    }

    /// The field's value, if it stands there.
    pub fn get(&self, tag: u8) -> Option<&'a [u8]> {
        self.found.get(&tag).copied()
    }

    /// The value of a field that must stand there.
    pub fn bytes(&self, tag: u8) -> &'a [u8] {
        self.get(tag).unwrap_or_default()
    }

    /// The number in a field that must stand there.
    pub fn number(&self, tag: u8) -> u128 {
        number(self.bytes(tag))
    }

    /// The number in a field that may stand there.
    pub fn optional_number(&self, tag: u8) -> Option<u128> {
        self.get(tag).map(number)
    }
}
