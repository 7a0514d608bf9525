//! What leads from one schema to another: changes that the keeper makes, and what
//! no change can do.

mod detour;
mod fixed;
mod keys;
mod play;
mod steps;

pub use play::played;
