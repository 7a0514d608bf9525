//! Rules 19 to 21, 38 to 40 and 23: categories and the naming attribute. A
//! named row that is not there breaks none of these (R56); 17 or 18 tells it.

use crate::schema::{Category, Class, Schema};

/// "19 An auxiliary not of category 0 or 3."
pub fn wrong_auxiliary(schema: &Schema, class: &Class) -> bool {
    let fits = |category| matches!(category, Category::EightyEight | Category::Auxiliary);
    !categories(schema, class.auxiliaries()).all(fits)
}

/// "20 A possible superior not of category 0 or 1."
pub fn wrong_possible_superior(schema: &Schema, class: &Class) -> bool {
    let fits = |category| matches!(category, Category::EightyEight | Category::Structural);
    !categories(schema, class.possible_superiors()).all(fits)
}

fn categories(
    schema: &Schema,
    numbers: impl Iterator<Item = u16>,
) -> impl Iterator<Item = Category> {
    let classes = numbers.filter_map(|number| schema.class(number));
    classes.map(|class| class.category)
}

/// "21 keeps "row 0 not abstract"" (document 02, wish 3)
pub fn root_not_abstract(number: u16, class: &Class) -> bool {
    number == 0 && class.category != Category::Abstract
}

/// "38 is abstract under another kind"
pub fn abstract_under_other(schema: &Schema, number: u16, class: &Class) -> bool {
    let other = |above| above != Category::Abstract;
    class.category == Category::Abstract && above(schema, number, class).is_some_and(other)
}

/// "39 auxiliary under structural"
pub fn auxiliary_under_structural(schema: &Schema, number: u16, class: &Class) -> bool {
    let structural = |above| above == Category::Structural;
    class.category == Category::Auxiliary && above(schema, number, class).is_some_and(structural)
}

/// "40 structural under auxiliary"
pub fn structural_under_auxiliary(schema: &Schema, number: u16, class: &Class) -> bool {
    let auxiliary = |above| above == Category::Auxiliary;
    class.category == Category::Structural && above(schema, number, class).is_some_and(auxiliary)
}

/// The category of the class above; row 0 has none above it.
fn above(schema: &Schema, number: u16, class: &Class) -> Option<Category> {
    let superclass = schema.class(class.superclass).filter(|_| number != 0);
    superclass.map(|superclass| superclass.category)
}

/// "23 The naming attribute isn't 2.5.5.12 and single-valued."
pub fn wrong_naming_attribute(schema: &Schema, class: &Class) -> bool {
    let naming = class.naming.and_then(|number| schema.attribute(number));
    naming.is_some_and(|attribute| !(attribute.syntax == 12 && attribute.single_valued))
}
