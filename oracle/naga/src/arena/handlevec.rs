//! Stands for naga's `HandleVec`, which the handle check does not use.

pub struct HandleVec;
