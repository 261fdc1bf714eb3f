//! Where the items of a module stand among the kept records, table by table.
use naga::{Handle, Type};

/// The position of each item, by its number in its table.
#[derive(Clone, Default)]
pub struct Positions {
    pub types: Vec<usize>,
    pub constants: Vec<usize>,
    pub overrides: Vec<usize>,
    pub global_variables: Vec<usize>,
    pub global_expressions: Vec<usize>,
    pub diagnostic_filters: Vec<usize>,
    pub functions: Vec<BodyPositions>,
    pub entry_points: Vec<BodyPositions>,
    /// The last record of special types, if there is one, and the last leaf.
    pub special_types: usize,
    pub diagnostic_filter_leaf: usize,
    pub predeclared_types: Vec<PredeclaredType>,
}

/// A record of a predeclared type. Of those with one key naga's map has the last only.
#[derive(Clone)]
pub struct PredeclaredType {
    pub ty: Handle<Type>,
    pub position: usize,
}

#[derive(Clone, Default)]
pub struct BodyPositions {
    /// The record that opens the body.
    pub opener: usize,
    pub arguments: Vec<usize>,
    pub result: usize,
    pub local_variables: Vec<usize>,
    pub expressions: Vec<usize>,
    /// The first record of each named expression.
    pub named_expressions: Vec<usize>,
    /// The records of statements in order, with those that open and close blocks.
    pub statements: Vec<usize>,
}

/// Adds the position of the next item of a table, where positions are asked for.
pub fn note<const PLACED: bool>(table: &mut Vec<usize>, position: usize) {
    if PLACED {
        table.push(position);
    }
}
