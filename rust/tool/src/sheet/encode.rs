//! Rows as the fields of a sheet or of a change.

use crate::rows::{Attribute, Class, Common, List, Schema};

/// A value with its tag and length; in words why not, where it is too long for
/// the two bytes that tell its length.
pub fn field(tag: u8, value: &[u8]) -> Result<Vec<u8>, String> {
    let length = u16::try_from(value.len());
    let length = length.map_err(|_| "more bytes than a field can hold (65,535)".to_owned())?;
    let mut bytes = vec![tag];
    bytes.extend(length.to_be_bytes());
    bytes.extend(value);
    Ok(bytes)
}

/// The sheet of a schema. Any rows can be written; the keeper judges them.
pub fn encode(schema: &Schema) -> Result<Vec<u8>, String> {
    let mut sheet = field(0x01, &[1])?;
    for row in schema.rows() {
        let value = match schema.attributes.get(row.number) {
            Some(attribute) if row.table == crate::rows::Table::Attributes => {
                attribute_fields(attribute).and_then(|value| field(0x20, &value))
            }
            _ => {
                let class = &schema.classes[row.number];
                class_fields(class).and_then(|value| field(0x30, &value))
            }
        };
        let value = value.map_err(|fault| format!("{}: {fault}", schema.told(row)))?;
        sheet.extend(value);
    }
    Ok(sheet)
}

/// The fields of an attribute row.
pub fn attribute_fields(row: &Attribute) -> Result<Vec<u8>, String> {
    let mut bytes = common_fields(&row.common)?;
    bytes.extend(field(0x06, &[row.syntax])?);
    bytes.extend(field(0x07, &[row.om_syntax])?);
    if !row.object_class.is_empty() {
        bytes.extend(field(0x08, &row.object_class)?);
    }
    if row.single {
        bytes.extend(field(0x09, &[])?);
    }
    let ends = [(0x0A, row.lower), (0x0B, row.upper)];
    let ends = ends.map(|(tag, end)| (tag, end.map(i32::cast_unsigned)));
    for (tag, number) in ends.into_iter().chain([(0x0C, row.link), (0x0D, row.mapi)]) {
        if let Some(number) = number {
            bytes.extend(field(tag, &number.to_be_bytes())?);
        }
    }
    Ok(bytes)
}

/// The fields of a class row.
pub fn class_fields(row: &Class) -> Result<Vec<u8>, String> {
    let mut bytes = common_fields(&row.common)?;
    bytes.extend(field(0x10, &[row.category])?);
    bytes.extend(field(0x11, &row.superclass.to_be_bytes())?);
    if let Some(naming) = row.naming {
        bytes.extend(field(0x12, &naming.to_be_bytes())?);
    }
    for list in List::ALL {
        let entries: Vec<u8> = row
            .list(list)
            .iter()
            .flat_map(|entry| entry.to_be_bytes())
            .collect();
        if !entries.is_empty() {
            bytes.extend(field(list.tag(), &entries)?);
        }
    }
    Ok(bytes)
}

fn common_fields(row: &Common) -> Result<Vec<u8>, String> {
    let arcs: Vec<u8> = row.arcs.iter().flat_map(|arc| arc.to_be_bytes()).collect();
    let mut bytes = field(0x01, &row.name)?;
    bytes.extend(field(0x02, &arcs)?);
    bytes.extend(field(0x03, &row.guid)?);
    bytes.extend(field(0x04, &row.flags.to_be_bytes())?);
    if row.defunct {
        bytes.extend(field(0x05, &[])?);
    }
    Ok(bytes)
}
