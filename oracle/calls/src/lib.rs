//! Calls on the pending window as plain data, independent of any implementation: what is called,
//! what it answers, what goes and the whole state after it; the seeded generator and the tally.

pub mod compare;
pub mod data;
pub mod events;
pub mod figures;
pub mod generator;
pub mod odd;
pub mod random;
pub mod select;
pub mod sound;
pub mod tally;
pub mod text;
mod world;

pub use data::*;
