//! Schemas, sheets, changes and stores made at random, the same for the same
//! seed; and the numbers, seeds among them, that the commands here are given.

pub mod arguments;
pub mod changes;
pub mod coverage;
mod damage;
mod random;
mod rows;
pub mod schemas;
pub mod sheets;
mod spoil;
pub mod stores;

pub use damage::damaged;
pub use random::Random;
