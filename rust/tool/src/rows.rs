//! A schema as ordinary values: the rows of both tables, by number.
//!
//! No rule is judged here. Rows may be anything that bytes can say.

use crate::words::shown;
use std::collections::BTreeSet;

/// The systemFlag that marks a row that came with the server.
pub const BASE: u32 = 0x10;

/// What every row has.
#[derive(Clone, Debug, Default, PartialEq, Eq)]
pub struct Common {
    /// The display name, any bytes.
    pub name: Vec<u8>,
    /// The object identifier.
    pub arcs: Vec<u32>,
    /// The schemaIDGUID.
    pub guid: [u8; 16],
    /// The systemFlags.
    pub flags: u32,
    /// No longer in use.
    pub defunct: bool,
}

/// A row of the attributes.
#[derive(Clone, Debug, Default, PartialEq, Eq)]
pub struct Attribute {
    /// What every row has.
    pub common: Common,
    /// The n of 2.5.5.n.
    pub syntax: u8,
    /// The oMSyntax.
    pub om_syntax: u8,
    /// The oMObjectClass; empty where none is given.
    pub object_class: Vec<u8>,
    /// Single-valued.
    pub single: bool,
    /// rangeLower.
    pub lower: Option<i32>,
    /// rangeUpper.
    pub upper: Option<i32>,
    /// linkID.
    pub link: Option<u32>,
    /// mAPIID.
    pub mapi: Option<u32>,
}

/// A row of the classes.
#[derive(Clone, Debug, Default, PartialEq, Eq)]
pub struct Class {
    /// What every row has.
    pub common: Common,
    /// 0 88 class, 1 structural, 2 abstract, 3 auxiliary.
    pub category: u8,
    /// The number of the superclass.
    pub superclass: u16,
    /// The number of the naming attribute, rDNAttID.
    pub naming: Option<u16>,
    /// The seven lists, in the order of [`List::ALL`].
    pub lists: [BTreeSet<u16>; 7],
}

impl Class {
    /// One of the seven lists.
    pub fn list(&self, list: List) -> &BTreeSet<u16> {
        &self.lists[list as usize]
    }

    /// One of the seven lists, to be changed.
    pub fn list_mut(&mut self, list: List) -> &mut BTreeSet<u16> {
        &mut self.lists[list as usize]
    }

    /// The category in a word.
    pub fn category_word(&self) -> &'static str {
        let words = ["88 class", "structural", "abstract", "auxiliary"];
        words.get(usize::from(self.category)).unwrap_or(&"unknown")
    }
}

/// One of the seven lists of a class.
#[derive(Clone, Copy, Debug, PartialEq, Eq)]
pub enum List {
    /// Mandatory attributes.
    Mandatory,
    /// Fixed optional attributes.
    FixedOptional,
    /// Open optional attributes.
    OpenOptional,
    /// Fixed auxiliary classes.
    FixedAuxiliary,
    /// Open auxiliary classes.
    OpenAuxiliary,
    /// Fixed possible superiors.
    FixedSuperior,
    /// Open possible superiors.
    OpenSuperior,
}

impl List {
    /// All seven, in the order of their tags.
    pub const ALL: [List; 7] = [
        List::Mandatory,
        List::FixedOptional,
        List::OpenOptional,
        List::FixedAuxiliary,
        List::OpenAuxiliary,
        List::FixedSuperior,
        List::OpenSuperior,
    ];

    /// The tag of the list in a class row.
    pub fn tag(self) -> u8 {
        0x13 + self as u8
    }

    /// The word of the text form.
    pub fn word(self) -> &'static str {
        [
            "must",
            "system-may",
            "may",
            "system-aux",
            "aux",
            "system-in",
            "in",
        ][self as usize]
    }

    /// What the list holds, for people.
    pub fn title(self) -> &'static str {
        [
            "mandatory attributes",
            "fixed optional attributes",
            "open optional attributes",
            "fixed auxiliary classes",
            "open auxiliary classes",
            "fixed possible superiors",
            "open possible superiors",
        ][self as usize]
    }

    /// The table that the entries are rows of.
    pub fn table(self) -> Table {
        match self {
            List::Mandatory | List::FixedOptional | List::OpenOptional => Table::Attributes,
            _ => Table::Classes,
        }
    }
}

/// One of the two tables.
#[derive(Clone, Copy, Debug, PartialEq, Eq, PartialOrd, Ord)]
pub enum Table {
    /// The attributes, table 1.
    Attributes,
    /// The classes, table 2.
    Classes,
}

impl Table {
    /// What one row of the table is called.
    pub fn word(self) -> &'static str {
        match self {
            Table::Attributes => "attribute",
            Table::Classes => "class",
        }
    }

    /// The table that an answer names.
    pub fn of(number: u64) -> Option<Table> {
        match number {
            1 => Some(Table::Attributes),
            2 => Some(Table::Classes),
            _ => None,
        }
    }
}

/// A row of either table.
#[derive(Clone, Copy, Debug, PartialEq, Eq, PartialOrd, Ord)]
pub struct RowId {
    /// Its table.
    pub table: Table,
    /// Its number there.
    pub number: usize,
}

impl RowId {
    /// An attribute.
    pub fn attribute(number: impl Into<usize>) -> RowId {
        let number = number.into();
        RowId {
            table: Table::Attributes,
            number,
        }
    }

    /// A class.
    pub fn class(number: impl Into<usize>) -> RowId {
        let number = number.into();
        RowId {
            table: Table::Classes,
            number,
        }
    }
}

/// The rows of both tables.
#[derive(Clone, Debug, Default, PartialEq, Eq)]
pub struct Schema {
    /// The attributes, by number.
    pub attributes: Vec<Attribute>,
    /// The classes, by number.
    pub classes: Vec<Class>,
}

impl Schema {
    /// What every row has, of this one.
    pub fn common(&self, row: RowId) -> Option<&Common> {
        match row.table {
            Table::Attributes => self.attributes.get(row.number).map(|row| &row.common),
            Table::Classes => self.classes.get(row.number).map(|row| &row.common),
        }
    }

    /// What every row has, of this one, to be changed.
    pub fn common_mut(&mut self, row: RowId) -> Option<&mut Common> {
        match row.table {
            Table::Attributes => self
                .attributes
                .get_mut(row.number)
                .map(|row| &mut row.common),
            Table::Classes => self.classes.get_mut(row.number).map(|row| &mut row.common),
        }
    }

    /// All rows of a table.
    pub fn rows_of(&self, table: Table) -> impl Iterator<Item = RowId> + use<> {
        let count = match table {
            Table::Attributes => self.attributes.len(),
            Table::Classes => self.classes.len(),
        };
        (0..count).map(move |number| RowId { table, number })
    }

    /// All rows, attributes first.
    pub fn rows(&self) -> impl Iterator<Item = RowId> + use<> {
        self.rows_of(Table::Attributes)
            .chain(self.rows_of(Table::Classes))
    }

    /// The row of a table with this name, case aside.
    pub fn find(&self, table: Table, name: &str) -> Option<RowId> {
        self.rows_of(table).find(|row| self.is_named(*row, name))
    }

    fn is_named(&self, row: RowId, name: &str) -> bool {
        let common = self.common(row);
        common.is_some_and(|common| common.name.eq_ignore_ascii_case(name.as_bytes()))
    }

    /// The name of a row as it can be shown, without quotes; its number where it
    /// has no row.
    pub fn name(&self, row: RowId) -> String {
        match self.common(row) {
            Some(common) => shown(&common.name),
            None => format!("{} {}", row.table.word(), row.number),
        }
    }

    /// A row by table, number and name: attribute 1 `areaHa`.
    pub fn told(&self, row: RowId) -> String {
        let (word, number) = (row.table.word(), row.number);
        match self.common(row) {
            Some(common) => format!("{word} {number} `{}`", shown(&common.name)),
            None => format!("{word} {number}, which has no row"),
        }
    }
}
