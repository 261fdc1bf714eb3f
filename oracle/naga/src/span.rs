//! A part of a source text. Images have none, so each item has the default.

#[derive(Clone, Copy, Debug, Default)]
pub struct Span {
    pub start: u32,
    pub end: u32,
}
