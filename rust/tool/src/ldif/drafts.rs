//! Entries as rows whose names are not looked up yet.

use super::entry::Entry;
use super::records::{Record, Value};
use crate::rows::{Attribute, Class, Common, List, RowId, Table};
use crate::text::arcs;

/// A name by which a class names a row.
#[derive(Clone, Debug)]
pub struct Reference {
    /// The name, or an identifier.
    pub name: String,
    /// The attribute of LDIF that it is a value of.
    pub word: &'static str,
    /// Its line.
    pub line: usize,
}

/// An attribute with its line.
#[derive(Clone, Debug)]
pub struct AttributeDraft {
    /// Its row; where the entry has a fault, only name and identifier.
    pub row: Attribute,
    /// The line of its entry.
    pub line: usize,
    /// Why the entry is no row; it matters only if the row is taken.
    pub fault: Option<String>,
}

/// A class with its line and what it names.
#[derive(Clone, Debug)]
pub struct ClassDraft {
    /// Its row, without what it names; where the entry has a fault, only name and
    /// identifier.
    pub row: Class,
    /// Its superclass; an entry without one has a fault.
    pub superclass: Option<Reference>,
    /// Its naming attribute.
    pub naming: Option<Reference>,
    /// The entries of its lists.
    pub lists: Vec<(List, Reference)>,
    /// The line of its entry.
    pub line: usize,
    /// Why the entry is no row; it matters only if the row is taken.
    pub fault: Option<String>,
}

/// The rows of a text, in its order.
#[derive(Default)]
pub struct Drafts {
    /// The attributes.
    pub attributes: Vec<AttributeDraft>,
    /// The classes.
    pub classes: Vec<ClassDraft>,
}

impl Drafts {
    /// The fault of a row's entry, with the line of the entry.
    pub fn fault(&self, row: RowId) -> Option<(usize, &str)> {
        let (line, fault) = match row.table {
            Table::Attributes => {
                let draft = self.attributes.get(row.number)?;
                (draft.line, &draft.fault)
            }
            Table::Classes => {
                let draft = self.classes.get(row.number)?;
                (draft.line, &draft.fault)
            }
        };
        Some((line, fault.as_deref()?))
    }
}

/// The attributes of LDIF that hold a class's lists.
pub const LISTS: [(&str, List); 8] = [
    ("systemMustContain", List::Mandatory),
    ("mustContain", List::Mandatory),
    ("systemMayContain", List::FixedOptional),
    ("mayContain", List::OpenOptional),
    ("systemAuxiliaryClass", List::FixedAuxiliary),
    ("auxiliaryClass", List::OpenAuxiliary),
    ("systemPossSuperiors", List::FixedSuperior),
    ("possSuperiors", List::OpenSuperior),
];

/// The rows of records; entries that are no rows, and changes that are no
/// additions, are passed over and noted.
pub fn drafts(records: &[Record], notes: &mut Vec<String>) -> Drafts {
    let mut drafts = Drafts::default();
    for record in records {
        let change = record.first("changetype").map(Value::text);
        let is_added = change.as_ref().is_none_or(|change| is_addition(change));
        if let Some(change) = change.filter(|_| !is_added) {
            let words = format!(
                "line {}: passed over: a change of type {}",
                record.line(),
                change.escape_default()
            );
            notes.push(words);
        } else if is_kind(record, "attributeschema", "attributeid") {
            drafts.attributes.push(attribute(record));
        } else if is_kind(record, "classschema", "governsid") {
            drafts.classes.push(class(record));
        } else {
            let words = format!(
                "line {}: passed over: neither attributeSchema nor classSchema",
                record.line()
            );
            notes.push(words);
        }
    }
    drafts
}

/// Whether a change adds its entry: `add`, or `ntdsSchemaAdd`, as Active
/// Directory's own files of schema changes have it.
fn is_addition(change: &str) -> bool {
    ["add", "ntdsSchemaAdd"]
        .iter()
        .any(|known| known.eq_ignore_ascii_case(change))
}

/// Whether an entry says that it is of a class; where it has no objectClass,
/// whether it has the identifier of that class.
fn is_kind(record: &Record, class: &str, identifier: &str) -> bool {
    match record.first("objectclass") {
        Some(_) => record
            .all("objectclass")
            .any(|value| value.text().eq_ignore_ascii_case(class)),
        None => record.first(identifier).is_some(),
    }
}

fn attribute(record: &Record) -> AttributeDraft {
    let (row, fault) = match attribute_row(record) {
        Ok(row) => (row, None),
        Err(fault) => {
            let common = named(record, "attributeid");
            let row = Attribute {
                common,
                ..Attribute::default()
            };
            (row, Some(fault))
        }
    };
    AttributeDraft {
        row,
        line: record.line(),
        fault,
    }
}

/// Name and identifier of an entry that has a fault, as far as they can be read.
fn named(record: &Record, identifier: &str) -> Common {
    let name = record.first("ldapdisplayname");
    let identifier = record.first(identifier).map(Value::text);
    let arcs = identifier.and_then(|identifier| arcs(&identifier));
    Common {
        name: name.map(|name| name.bytes.clone()).unwrap_or_default(),
        arcs: arcs.unwrap_or_default(),
        ..Common::default()
    }
}

fn attribute_row(record: &Record) -> Result<Attribute, String> {
    let entry = Entry::of(record)?;
    let syntax = entry.needed("attributeSyntax")?;
    let number = match arcs(&syntax.text()).as_deref() {
        Some([2, 5, 5, number]) => u8::try_from(*number).ok(),
        _ => None,
    };
    let fault = || entry.fault(syntax.line, "attributeSyntax: not 2.5.5 and a number");
    entry.needed("oMSyntax")?;
    entry.needed("isSingleValued")?;
    Ok(Attribute {
        common: entry.common("attributeID")?,
        syntax: number.ok_or_else(fault)?,
        om_syntax: entry.number("oMSyntax")?.unwrap_or(0),
        object_class: object_class(&entry)?,
        single: entry.truth("isSingleValued")?,
        lower: entry.number("rangeLower")?,
        upper: entry.number("rangeUpper")?,
        link: entry.identity("linkID")?,
        mapi: entry.identity("mAPIID")?,
    })
}

fn object_class(entry: &Entry) -> Result<Vec<u8>, String> {
    match entry.record.first("omobjectclass") {
        None => Ok(Vec::new()),
        Some(value) if value.is_encoded => Ok(value.bytes.clone()),
        Some(value) => Err(entry.fault(value.line, "oMObjectClass: not in base64")),
    }
}

fn class(record: &Record) -> ClassDraft {
    let (row, fault) = match class_row(record) {
        Ok(row) => (row, None),
        Err(fault) => {
            let common = named(record, "governsid");
            let row = Class {
                common,
                ..Class::default()
            };
            (row, Some(fault))
        }
    };
    let lists = LISTS
        .into_iter()
        .flat_map(|(word, list)| references(record, word).map(move |name| (list, name)));
    ClassDraft {
        row,
        superclass: references(record, "subClassOf").next(),
        naming: references(record, "rDNAttID").next(),
        lists: lists.collect(),
        line: record.line(),
        fault,
    }
}

/// The names that an entry has under a word.
fn references(record: &Record, word: &'static str) -> impl Iterator<Item = Reference> {
    let values = record.values.iter();
    let named = values.filter(move |value| value.name.eq_ignore_ascii_case(word));
    named.map(move |value| Reference {
        name: value.text(),
        word,
        line: value.line,
    })
}

fn class_row(record: &Record) -> Result<Class, String> {
    let entry = Entry::of(record)?;
    entry.needed("subClassOf")?;
    entry.needed("objectClassCategory")?;
    Ok(Class {
        common: entry.common("governsID")?,
        category: entry.number("objectClassCategory")?.unwrap_or(0),
        ..Class::default()
    })
}
