//! Lines of the text form as rows.

use super::lines::{Fault, Line, Source, arcs};
use super::names::Names;
use crate::rows::{Attribute, BASE, Class, Common, List, RowId, Schema, Table};

/// The line at which each row begins, counted from 1.
#[derive(Clone, Debug, Default, PartialEq, Eq)]
pub struct Lines {
    /// Of the attributes, by number.
    pub attributes: Vec<usize>,
    /// Of the classes, by number.
    pub classes: Vec<usize>,
}

impl Lines {
    /// The line at which a row begins.
    pub fn of(&self, row: RowId) -> Option<usize> {
        let lines = match row.table {
            Table::Attributes => &self.attributes,
            Table::Classes => &self.classes,
        };
        lines.get(row.number).copied()
    }
}

/// The schema that a text writes down, and where its rows begin.
pub fn read(text: &str) -> Result<(Schema, Lines), Fault> {
    let sources = Source::all(text)?;
    let (mut names, mut lines) = (Names::default(), Lines::default());
    for source in &sources {
        let (name, _) = source.head()?;
        let row = match source.is_attribute() {
            true => RowId::attribute(lines.attributes.len()),
            false => RowId::class(lines.classes.len()),
        };
        names.insert(row, name);
        match row.table {
            Table::Attributes => lines.attributes.push(source.head.at),
            Table::Classes => lines.classes.push(source.head.at),
        }
    }
    let mut schema = Schema::default();
    for source in &sources {
        match source.is_attribute() {
            true => schema.attributes.push(attribute(source)?),
            false => schema.classes.push(class(source, &names)?),
        }
    }
    Ok((schema, lines))
}

/// The attribute that a head and its lines say.
pub fn attribute(source: &Source) -> Result<Attribute, Fault> {
    require(source, &["guid"], "guid")?;
    require(source, &["syntax"], "syntax")?;
    let common = common(source)?;
    let mut row = Attribute {
        common,
        ..Attribute::default()
    };
    for line in &source.lines {
        attribute_line(line, &mut row)?;
    }
    Ok(row)
}

/// The class that a head and its lines say, with the rows that they name.
pub fn class(source: &Source, names: &Names) -> Result<Class, Fault> {
    require(source, &["guid"], "guid")?;
    require(
        source,
        &["88", "structural", "abstract", "auxiliary"],
        "category",
    )?;
    require(source, &["under"], "under")?;
    let common = common(source)?;
    let mut row = Class {
        common,
        ..Class::default()
    };
    for line in &source.lines {
        class_line(line, names, &mut row)?;
    }
    Ok(row)
}

/// Every row must have one of these lines.
fn require(source: &Source, words: &[&str], what: &str) -> Result<(), Fault> {
    match source.lines.iter().any(|line| words.contains(&line.word)) {
        true => Ok(()),
        false => Err(source.head.fault(&format!("{what} is missing"))),
    }
}

/// What every row has, from its head; its lines say the rest.
fn common(source: &Source) -> Result<Common, Fault> {
    let (name, identifier) = source.head()?;
    let fault = || {
        source
            .head
            .fault("the identifier is not numbers with dots between")
    };
    Ok(Common {
        name: name.as_bytes().to_vec(),
        arcs: arcs(identifier).ok_or_else(fault)?,
        ..Common::default()
    })
}

/// Takes a line that any row may have; any other is not understood.
fn common_line(line: &Line, row: &mut Common) -> Result<(), Fault> {
    match line.word {
        "guid" => {
            let bytes = line.bytes()?.try_into();
            row.guid = bytes.map_err(|_| line.fault("not 16 bytes"))?;
        }
        "base" => row.flags |= BASE,
        "flags" => row.flags |= line.number::<u32>()?,
        "defunct" => row.defunct = true,
        _ => return Err(line.fault("not a line of this row")),
    }
    Ok(())
}

fn attribute_line(line: &Line, row: &mut Attribute) -> Result<(), Fault> {
    match line.word {
        "syntax" => (row.syntax, row.om_syntax) = syntax(line)?,
        "object" => row.object_class = line.bytes()?,
        "single" => row.single = true,
        "lower" => row.lower = Some(line.number()?),
        "upper" => row.upper = Some(line.number()?),
        "link" => row.link = Some(line.number()?),
        "mapi" => row.mapi = Some(line.number()?),
        _ => common_line(line, &mut row.common)?,
    }
    Ok(())
}

fn syntax(line: &Line) -> Result<(u8, u8), Fault> {
    let numbers: Result<Vec<u8>, _> = line.rest.iter().map(|word| word.parse()).collect();
    match numbers.as_deref() {
        Ok([syntax, om_syntax]) => Ok((*syntax, *om_syntax)),
        _ => Err(line.fault("two numbers must follow")),
    }
}

fn class_line(line: &Line, names: &Names, row: &mut Class) -> Result<(), Fault> {
    let number = |table, name| names.number(line, table, name);
    match line.word {
        "88" => row.category = 0,
        "structural" => row.category = 1,
        "abstract" => row.category = 2,
        "auxiliary" => row.category = 3,
        "under" => row.superclass = number(Table::Classes, line.one()?)?,
        "naming" => row.naming = Some(number(Table::Attributes, line.one()?)?),
        word => match List::ALL.into_iter().find(|list| list.word() == word) {
            Some(list) => {
                for name in &line.rest {
                    row.list_mut(list).insert(number(list.table(), name)?);
                }
            }
            None => common_line(line, &mut row.common)?,
        },
    }
    Ok(())
}
