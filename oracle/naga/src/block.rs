//! A list of statements, as naga's `Block`: each with a span.
use crate::{Span, Statement};
use std::ops::Deref;

#[derive(Clone, Debug, Default)]
pub struct Block {
    body: Vec<Statement>,
    spans: Vec<Span>,
}

impl Block {
    pub fn push(&mut self, statement: Statement, span: Span) {
        self.body.push(statement);
        self.spans.push(span);
    }
}

impl Deref for Block {
    type Target = [Statement];
    fn deref(&self) -> &[Statement] {
        &self.body
    }
}
