//! Replay scripts, "for comparing implementations in every answer and byte":
//! their steps, the reference playing them, and scripts made at random.

pub mod examples;
mod hash;
mod player;
mod script;
mod step;

pub use hash::fnv1a;
pub use player::Player;
pub use script::{Kind, SMALL, Script};
pub use step::{LONGEST, Step, Unplayable, steps};
