//! naga's handle check and arenas, built from its own files unchanged, around an IR of our own.
//!
//! naga's files are those that `build.rs` names. All else that they use stands in this crate.
extern crate alloc;

mod block;
mod diagnostic_filter;
mod hash;
mod ir;
mod span;
mod valid;

include!(concat!(env!("OUT_DIR"), "/modules.rs"));

pub use arena::{Arena, Handle, Range, UniqueArena};
pub use block::Block;
pub use diagnostic_filter::DiagnosticFilterNode;
pub use hash::{FastIndexMap, FastIndexSet};
pub use ir::*;
pub use span::Span;
pub use valid::{validate_module_handles, InvalidHandleError, ValidationError};

/// The handle with this number, or none for 4294967295.
pub fn handle<T>(number: u32) -> Option<Handle<T>> {
    non_max_u32::NonMaxU32::new(number).map(Handle::new)
}
