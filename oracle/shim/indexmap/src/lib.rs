//! A set and a map that keep the order of first insertion: the part of the crate indexmap that naga's arenas use.
mod index;
pub mod map;
pub mod set;

pub use map::IndexMap;
pub use set::IndexSet;
