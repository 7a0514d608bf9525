//! Attribute rows and class rows as ordinary values.

use std::collections::BTreeSet;

/// "at most 128 classes and 256 attributes (house)"
pub const ATTRIBUTE_LIMIT: usize = 256;
/// "at most 128 classes and 256 attributes (house)"
pub const CLASS_LIMIT: usize = 128;
/// "display name (up to 64 bytes)"
pub const NAME_LIMIT: usize = 64;
/// "object identifier (up to 16 arcs, each a u32)"
pub const ARC_LIMIT: usize = 16;
/// "oMObjectClass (up to 16 bytes)"
pub const OBJECT_CLASS_LIMIT: usize = 16;
/// "A row is a *base row* if systemFlags has 0x10"
pub const BASE_FLAG: u32 = 0x10;

/// A set of attribute numbers or of class numbers.
pub type Numbers = BTreeSet<u16>;

/// A row's table and number.
#[derive(Clone, Copy, Debug, PartialEq, Eq)]
pub enum Row {
    /// A row of the attribute table.
    Attribute(u16),
    /// A row of the class table.
    Class(u16),
}

impl Row {
    /// "a table (0 none, 1 attribute, 2 class)"
    pub const fn table(self) -> u64 {
        match self {
            Row::Attribute(_) => 1,
            Row::Class(_) => 2,
        }
    }

    /// The row's number within its table.
    pub const fn number(self) -> u16 {
        match self {
            Row::Attribute(number) | Row::Class(number) => number,
        }
    }
}

/// "Every row: display name (up to 64 bytes), object identifier (up to 16
/// arcs, each a u32), schemaIDGUID (16 bytes), systemFlags (u32), active or
/// defunct."
#[derive(Clone, Debug, Default, PartialEq, Eq)]
pub struct Common {
    /// The display name.
    pub name: Vec<u8>,
    /// The object identifier's arcs.
    pub arcs: Vec<u32>,
    /// The schemaIDGUID, its first byte the most significant.
    pub guid: u128,
    /// The systemFlags.
    pub system_flags: u32,
    /// Defunct, or else active.
    pub defunct: bool,
}

impl Common {
    /// "A row is a *base row* if systemFlags has 0x10"
    pub fn is_base(&self) -> bool {
        self.system_flags & BASE_FLAG != 0
    }

    /// "active or defunct"
    pub fn is_active(&self) -> bool {
        !self.defunct
    }
}

/// "Attribute row also: attributeSyntax (last arc of 2.5.5.n), oMSyntax,
/// oMObjectClass (up to 16 bytes), single-valued or not, rangeLower and
/// rangeUpper (signed, 32 bits, each may be absent), linkID and mAPIID (0 is
/// absent)."
#[derive(Clone, Debug, Default, PartialEq, Eq)]
pub struct Attribute {
    /// What every row has.
    pub common: Common,
    /// The last arc of 2.5.5.n.
    pub syntax: u8,
    /// The oMSyntax.
    pub om_syntax: u8,
    /// The oMObjectClass, empty where nothing is stored.
    pub om_object_class: Vec<u8>,
    /// Single-valued or not.
    pub single_valued: bool,
    /// The rangeLower, if present.
    pub range_lower: Option<i32>,
    /// The rangeUpper, if present.
    pub range_upper: Option<i32>,
    /// The linkID, if present: never `Some(0)`.
    pub link_id: Option<u32>,
    /// The mAPIID, if present: never `Some(0)`.
    pub mapi_id: Option<u32>,
}

/// "category (0 88 class, 1 structural, 2 abstract, 3 auxiliary)"
#[derive(Clone, Copy, Debug, Default, PartialEq, Eq)]
pub enum Category {
    /// 0, an 88 class.
    #[default]
    EightyEight,
    /// 1, structural.
    Structural,
    /// 2, abstract.
    Abstract,
    /// 3, auxiliary.
    Auxiliary,
}

impl Category {
    /// The category with this number; "category over 3" has none.
    pub fn from_number(number: u8) -> Option<Category> {
        match number {
            0 => Some(Category::EightyEight),
            1 => Some(Category::Structural),
            2 => Some(Category::Abstract),
            3 => Some(Category::Auxiliary),
            _ => None,
        }
    }

    /// The category's number.
    pub fn number(self) -> u8 {
        match self {
            Category::EightyEight => 0,
            Category::Structural => 1,
            Category::Abstract => 2,
            Category::Auxiliary => 3,
        }
    }
}

/// The three open lists of a class, which changes may add to or remove from.
#[derive(Clone, Copy, Debug, PartialEq, Eq)]
pub enum OpenList {
    /// Open optional attributes.
    Optional,
    /// Open auxiliary classes.
    Auxiliary,
    /// Open possible superiors.
    PossibleSuperiors,
}

/// "Class row also: category, superclass, naming attribute rDNAttID (may be
/// absent), and seven sets: mandatory; fixed and open optional; fixed and open
/// auxiliary; fixed and open possible superiors."
#[derive(Clone, Debug, Default, PartialEq, Eq)]
pub struct Class {
    /// What every row has.
    pub common: Common,
    /// The category.
    pub category: Category,
    /// The superclass's number.
    pub superclass: u16,
    /// The naming attribute rDNAttID, if present.
    pub naming: Option<u16>,
    /// Mandatory attributes: mustContain and systemMustContain are one set.
    pub mandatory: Numbers,
    /// Fixed optional attributes.
    pub fixed_optional: Numbers,
    /// Open optional attributes.
    pub open_optional: Numbers,
    /// Fixed auxiliary classes.
    pub fixed_auxiliary: Numbers,
    /// Open auxiliary classes.
    pub open_auxiliary: Numbers,
    /// Fixed possible superiors.
    pub fixed_superiors: Numbers,
    /// Open possible superiors.
    pub open_superiors: Numbers,
}

impl Class {
    /// Optional attributes, "fixed and open".
    pub fn optional(&self) -> impl Iterator<Item = u16> {
        let lists = self.fixed_optional.iter().chain(&self.open_optional);
        lists.copied()
    }

    /// Auxiliary classes, fixed and open.
    pub fn auxiliaries(&self) -> impl Iterator<Item = u16> {
        let lists = self.fixed_auxiliary.iter().chain(&self.open_auxiliary);
        lists.copied()
    }

    /// Possible superiors, fixed and open.
    pub fn possible_superiors(&self) -> impl Iterator<Item = u16> {
        let lists = self.fixed_superiors.iter().chain(&self.open_superiors);
        lists.copied()
    }

    /// Every attribute the row names: in a list or as rDNAttID.
    pub fn named_attributes(&self) -> impl Iterator<Item = u16> {
        let mandatory = self.mandatory.iter().copied();
        mandatory.chain(self.optional()).chain(self.naming)
    }

    /// Every class the row names in a list.
    pub fn listed_classes(&self) -> impl Iterator<Item = u16> {
        self.auxiliaries().chain(self.possible_superiors())
    }

    /// Every class the row names: in a list or as superclass.
    pub fn named_classes(&self) -> impl Iterator<Item = u16> {
        self.listed_classes().chain([self.superclass])
    }

    /// One of the open lists.
    pub fn open(&self, list: OpenList) -> &Numbers {
        match list {
            OpenList::Optional => &self.open_optional,
            OpenList::Auxiliary => &self.open_auxiliary,
            OpenList::PossibleSuperiors => &self.open_superiors,
        }
    }

    /// One of the open lists, to be changed.
    pub fn open_mut(&mut self, list: OpenList) -> &mut Numbers {
        match list {
            OpenList::Optional => &mut self.open_optional,
            OpenList::Auxiliary => &mut self.open_auxiliary,
            OpenList::PossibleSuperiors => &mut self.open_superiors,
        }
    }

    /// The fixed list beside an open one.
    pub fn fixed(&self, list: OpenList) -> &Numbers {
        match list {
            OpenList::Optional => &self.fixed_optional,
            OpenList::Auxiliary => &self.fixed_auxiliary,
            OpenList::PossibleSuperiors => &self.fixed_superiors,
        }
    }
}

/// "Attribute rows and class rows, each in its own table"
#[derive(Clone, Debug, Default, PartialEq, Eq)]
pub struct Schema {
    /// The attribute rows, counted from 0.
    pub attributes: Vec<Attribute>,
    /// The class rows, counted from 0.
    pub classes: Vec<Class>,
}

impl Schema {
    /// The attribute row with this number, if there is one.
    pub fn attribute(&self, number: u16) -> Option<&Attribute> {
        self.attributes.get(usize::from(number))
    }

    /// The class row with this number, if there is one.
    pub fn class(&self, number: u16) -> Option<&Class> {
        self.classes.get(usize::from(number))
    }

    /// What every row has, of this row, if there is one.
    pub fn common(&self, row: Row) -> Option<&Common> {
        match row {
            Row::Attribute(number) => self.attribute(number).map(|a| &a.common),
            Row::Class(number) => self.class(number).map(|c| &c.common),
        }
    }

    /// What every row has, of this row, to be changed.
    pub fn common_mut(&mut self, row: Row) -> Option<&mut Common> {
        let place = usize::from(row.number());
        match row {
            Row::Attribute(_) => self.attributes.get_mut(place).map(|a| &mut a.common),
            Row::Class(_) => self.classes.get_mut(place).map(|c| &mut c.common),
        }
    }

    /// The number an attribute row would get if it were added: "an added row
    /// last in its table".
    pub fn next_attribute(&self) -> u16 {
        self.attributes.len() as u16
    }

    /// The number a class row would get if it were added.
    pub fn next_class(&self) -> u16 {
        self.classes.len() as u16
    }

    /// Every row, "attributes first".
    pub fn rows(&self) -> impl Iterator<Item = Row> {
        let attributes = (0..self.next_attribute()).map(Row::Attribute);
        attributes.chain((0..self.next_class()).map(Row::Class))
    }

    /// Whether no row is there.
    pub fn is_empty(&self) -> bool {
        self.attributes.is_empty() && self.classes.is_empty()
    }
}
