//! Two keepers compared in every answer and byte. Both get the same inputs; what
//! they give back, tell in `detail` and leave in every store and output must be
//! the same, bytes past the lengths too. And the program that lists a sheet
//! compared with the reference's listing.

mod astray;
mod case;
mod cases;
mod keeper;
#[cfg(feature = "linked")]
pub mod linked;
mod listings;
mod lists;
mod long;
mod outcome;
mod page;
mod pokes;
mod run;

pub use case::{Call, Case};
pub use cases::{cases, expected};
pub use keeper::{Keeper, Reference};
pub use listings::{Listings, compare_listings};
pub use long::{LENGTH, LongLists, compare_long};
pub use outcome::{Difference, Outcome};
pub use run::{Report, compare};
