//! The statements of a body in the order of their records, those in blocks too, each with its position.
use crate::positions::BodyPositions;
use naga::{Block, Function, Statement};

/// A statement and the position of its record. That of a `Block`, `If`, `Switch` or `Loop` is of the record that opens it.
pub struct Placed<'a> {
    pub statement: &'a Statement,
    pub position: usize,
}

/// All statements of a function.
pub fn statements<'a>(function: &'a Function, positions: &BodyPositions) -> Vec<Placed<'a>> {
    let mut walk = Walk {
        positions: positions.statements.iter(),
        met: Vec::new(),
    };
    walk.block(&function.body);
    walk.met
}

struct Walk<'a, 'b> {
    /// The records of statements that are not met yet.
    positions: std::slice::Iter<'b, usize>,
    met: Vec<Placed<'a>>,
}

impl<'a> Walk<'a, '_> {
    /// The position of the next record.
    fn record(&mut self) -> usize {
        *self.positions.next().expect("each statement has a record")
    }

    fn block(&mut self, block: &'a Block) {
        for statement in block.iter() {
            let position = self.record();
            self.met.push(Placed {
                statement,
                position,
            });
            self.blocks_of(statement);
        }
    }

    /// A block and the record that closes it.
    fn closed(&mut self, block: &'a Block) {
        self.block(block);
        self.record();
    }

    fn blocks_of(&mut self, statement: &'a Statement) {
        match statement {
            Statement::Block(block) => self.closed(block),
            Statement::If { accept, reject, .. } => {
                self.closed(accept);
                self.closed(reject);
            }
            Statement::Switch { cases, .. } => {
                for case in cases {
                    self.record();
                    self.closed(&case.body);
                }
                self.record();
            }
            Statement::Loop {
                body, continuing, ..
            } => {
                self.closed(body);
                self.closed(continuing);
            }
            _ => {}
        }
    }
}
