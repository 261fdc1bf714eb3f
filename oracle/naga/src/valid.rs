//! Of naga's validation the handle check alone, with the error types that it names.
use crate::{Handle, Module, Type};

include!(concat!(env!("OUT_DIR"), "/handles.rs"));

pub use handles::InvalidHandleError;

struct Validator;

/// Answers as naga's `Validator::validate_module_handles`, which only this module sees.
pub fn validate_module_handles(module: &Module) -> Result<(), ValidationError> {
    Validator::validate_module_handles(module)
}

#[derive(Clone, Debug)]
pub enum ValidationError {
    InvalidHandle(InvalidHandleError),
    /// Only of doc comments, which no image has.
    Type {
        handle: Handle<Type>,
        name: String,
        source: TypeError,
    },
}

#[derive(Clone, Debug)]
pub enum TypeError {
    InvalidData(Handle<Type>),
}

impl From<InvalidHandleError> for ValidationError {
    fn from(source: InvalidHandleError) -> Self {
        ValidationError::InvalidHandle(source)
    }
}
