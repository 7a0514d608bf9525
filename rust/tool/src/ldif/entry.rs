//! The values of one schema entry, as numbers, names and bytes.

use super::records::{Record, Value};
use crate::rows::Common;
use crate::text::arcs;

/// An entry with its name, for faults.
pub struct Entry<'a> {
    /// Its values.
    pub record: &'a Record,
    /// Its lDAPDisplayName.
    pub name: String,
}

impl<'a> Entry<'a> {
    /// The entry of a record.
    pub fn of(record: &'a Record) -> Result<Entry<'a>, String> {
        let named = record.first("ldapdisplayname");
        let missing = || format!("line {}: the entry has no lDAPDisplayName", record.line());
        let name = named.map(Value::text).ok_or_else(missing)?;
        Ok(Entry { record, name })
    }

    /// A fault of the entry, told by a line.
    pub fn fault(&self, line: usize, words: &str) -> String {
        format!(
            "line {line}: entry `{}`: {words}",
            self.name.escape_default()
        )
    }

    /// A value that must be there.
    pub fn needed(&self, name: &str) -> Result<&'a Value, String> {
        let value = self.record.first(&name.to_ascii_lowercase());
        value.ok_or_else(|| self.fault(self.record.line(), &format!("{name} is missing")))
    }

    /// A number that may be there.
    pub fn number<N: TryFrom<i64>>(&self, name: &str) -> Result<Option<N>, String> {
        let value = self.record.first(&name.to_ascii_lowercase());
        let number = |value: &Value| {
            let number = value
                .text()
                .parse::<i64>()
                .ok()
                .and_then(|number| N::try_from(number).ok());
            number.ok_or_else(|| self.fault(value.line, &format!("{name}: not a number that fits")))
        };
        value.map(number).transpose()
    }

    /// A number that may be there, where 0 counts as absent.
    pub fn identity(&self, name: &str) -> Result<Option<u32>, String> {
        Ok(self.number(name)?.filter(|number| *number != 0))
    }

    /// TRUE or FALSE; absent is FALSE.
    pub fn truth(&self, name: &str) -> Result<bool, String> {
        let Some(value) = self.record.first(&name.to_ascii_lowercase()) else {
            return Ok(false);
        };
        match value.text().to_ascii_uppercase().as_str() {
            "TRUE" => Ok(true),
            "FALSE" => Ok(false),
            _ => Err(self.fault(value.line, &format!("{name}: neither TRUE nor FALSE"))),
        }
    }

    /// What every row has; `identifier` is attributeID or governsID.
    pub fn common(&self, identifier: &str) -> Result<Common, String> {
        let oid = self.needed(identifier)?;
        let fault = || {
            self.fault(
                oid.line,
                &format!("{identifier}: not numbers with dots between"),
            )
        };
        Ok(Common {
            name: self.name.clone().into_bytes(),
            arcs: arcs(&oid.text()).ok_or_else(fault)?,
            guid: self.guid()?,
            flags: self.flags()?,
            defunct: self.truth("isDefunct")?,
        })
    }

    /// systemFlags, which directories write with a sign.
    fn flags(&self) -> Result<u32, String> {
        let signed = self.number::<i32>("systemFlags");
        match signed {
            Ok(flags) => Ok(flags.map_or(0, i32::cast_unsigned)),
            Err(_) => Ok(self.number::<u32>("systemFlags")?.unwrap_or(0)),
        }
    }

    /// The 16 bytes of base64, or a GUID with hyphens, whose first three parts
    /// stand least significant byte first among those bytes.
    fn guid(&self) -> Result<[u8; 16], String> {
        let value = self.needed("schemaIDGUID")?;
        let fault = || {
            self.fault(
                value.line,
                "schemaIDGUID: not 16 bytes in base64, nor a GUID with hyphens",
            )
        };
        if value.is_encoded {
            return value.bytes.as_slice().try_into().map_err(|_| fault());
        }
        guid_bytes(&value.text()).ok_or_else(fault)
    }
}

/// The bytes of a GUID with hyphens.
fn guid_bytes(text: &str) -> Option<[u8; 16]> {
    let lengths = text.split('-').map(str::len);
    let digits = text.replace('-', "");
    let is_guid =
        lengths.eq([8, 4, 4, 4, 12]) && digits.bytes().all(|digit| digit.is_ascii_hexdigit());
    let number = is_guid.then(|| u128::from_str_radix(&digits, 16).ok())??;
    let mut bytes = number.to_be_bytes();
    bytes[..4].reverse();
    bytes[4..6].reverse();
    bytes[6..8].reverse();
    Some(bytes)
}

#[cfg(test)]
mod tests {
    use super::super::base64::decoded;
    use super::guid_bytes;

    /// Active Directory's accountExpires, as two of Microsoft's files write it.
    #[test]
    fn a_guid_with_hyphens_has_the_bytes_of_base64() {
        let bytes = guid_bytes("bf967915-0de6-11d0-a285-00aa003049e2").map(|bytes| bytes.to_vec());
        assert_eq!(bytes, decoded("FXmWv+YN0BGihQCqADBJ4g=="));
        assert_eq!(guid_bytes("bf9679150de611d0a28500aa003049e2"), None);
        assert_eq!(guid_bytes("bf967915-0de6-11d0-a285-00aa003049é"), None);
    }
}
