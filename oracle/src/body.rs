//! The body of the function that is open, with the blocks that are open in it.
use crate::positions::{note, BodyPositions};
use crate::record::Record;
use crate::refusal::Refusal;
use naga::{Block, EntryPoint, Expression, Function, Handle, Mark, Span, Statement, SwitchCase};
use std::mem::{replace, take};

/// How many brackets may be open at a time.
const DEEPEST: usize = 64;

/// What the function that is open becomes.
pub enum Opener {
    Function,
    EntryPoint(Box<EntryPoint>),
}

/// An open bracket, with the block around it where it stands in one.
enum Bracket {
    Block {
        outer: Block,
    },
    Accept {
        outer: Block,
        condition: Handle<Expression>,
    },
    Reject {
        outer: Block,
        condition: Handle<Expression>,
        accept: Block,
    },
    Switch {
        outer: Block,
        selector: Handle<Expression>,
        cases: Vec<SwitchCase>,
    },
    Case {
        value: Mark,
        fall_through: bool,
    },
    LoopBody {
        outer: Block,
    },
    Continuing {
        outer: Block,
        body: Block,
    },
}

pub struct OpenBody<const PLACED: bool> {
    pub opener: Opener,
    pub function: Function,
    pub positions: BodyPositions,
    brackets: Vec<Bracket>,
    /// The block that the next statement joins.
    block: Block,
}

impl<const PLACED: bool> OpenBody<PLACED> {
    pub fn new(opener: Opener, function: Function, position: usize) -> Self {
        OpenBody {
            opener,
            function,
            positions: BodyPositions {
                opener: position,
                ..BodyPositions::default()
            },
            brackets: Vec::new(),
            block: Block::default(),
        }
    }

    /// Refusals 4 and 5 by the brackets that are open.
    pub fn admit(&self, record: &Record) -> Result<(), Refusal> {
        if self.fits(record) {
            let opens = matches!(
                record,
                Record::Block
                    | Record::If(_)
                    | Record::Switch(_)
                    | Record::Loop
                    | Record::Case { .. }
            );
            if opens && self.brackets.len() == DEEPEST {
                return Err(Refusal::TooDeep);
            }
            Ok(())
        } else {
            Err(Refusal::Misplaced)
        }
    }

    fn fits(&self, record: &Record) -> bool {
        let innermost = self.brackets.last();
        match record {
            Record::EndFunction => innermost.is_none(),
            Record::End => matches!(
                innermost,
                Some(
                    Bracket::Block { .. }
                        | Bracket::Accept { .. }
                        | Bracket::Reject { .. }
                        | Bracket::Case { .. }
                        | Bracket::LoopBody { .. }
                )
            ),
            Record::EndLoop(_) => matches!(innermost, Some(Bracket::Continuing { .. })),
            Record::Case { .. } | Record::EndSwitch => {
                matches!(innermost, Some(Bracket::Switch { .. }))
            }
            Record::Statement(_)
            | Record::Block
            | Record::If(_)
            | Record::Switch(_)
            | Record::Loop => !matches!(innermost, Some(Bracket::Switch { .. })),
            _ => true,
        }
    }

    /// Adds a statement record that was admitted.
    pub fn add_statement(&mut self, record: Record, position: usize) {
        note::<PLACED>(&mut self.positions.statements, position);
        match record {
            Record::Statement(statement) => self.push(statement),
            Record::Block => {
                let outer = take(&mut self.block);
                self.brackets.push(Bracket::Block { outer });
            }
            Record::If(condition) => {
                let outer = take(&mut self.block);
                self.brackets.push(Bracket::Accept { outer, condition });
            }
            Record::Switch(selector) => {
                let outer = take(&mut self.block);
                self.brackets.push(Bracket::Switch {
                    outer,
                    selector,
                    cases: Vec::new(),
                });
            }
            Record::Loop => {
                let outer = take(&mut self.block);
                self.brackets.push(Bracket::LoopBody { outer });
            }
            Record::Case {
                value,
                fall_through,
            } => self.brackets.push(Bracket::Case {
                value,
                fall_through,
            }),
            Record::End => self.end(),
            Record::EndLoop(break_if) => self.end_loop(break_if),
            Record::EndSwitch => self.end_switch(),
            _ => unreachable!("only statements are added here"),
        }
    }

    fn push(&mut self, statement: Statement) {
        self.block.push(statement, Span::default());
    }

    fn end(&mut self) {
        match self.brackets.pop() {
            Some(Bracket::Block { outer }) => {
                let inner = replace(&mut self.block, outer);
                self.push(Statement::Block(inner));
            }
            Some(Bracket::Accept { outer, condition }) => {
                let accept = take(&mut self.block);
                self.brackets.push(Bracket::Reject {
                    outer,
                    condition,
                    accept,
                });
            }
            Some(Bracket::Reject {
                outer,
                condition,
                accept,
            }) => {
                let reject = replace(&mut self.block, outer);
                self.push(Statement::If {
                    condition,
                    accept,
                    reject,
                });
            }
            Some(Bracket::Case {
                value,
                fall_through,
            }) => {
                let body = take(&mut self.block);
                let Some(Bracket::Switch { cases, .. }) = self.brackets.last_mut() else {
                    unreachable!("a case stands in a switch");
                };
                cases.push(SwitchCase {
                    value,
                    body,
                    fall_through,
                });
            }
            Some(Bracket::LoopBody { outer }) => {
                let body = take(&mut self.block);
                self.brackets.push(Bracket::Continuing { outer, body });
            }
            _ => unreachable!("the end was admitted"),
        }
    }

    fn end_loop(&mut self, break_if: Option<Handle<Expression>>) {
        let Some(Bracket::Continuing { outer, body }) = self.brackets.pop() else {
            unreachable!("the end of the loop was admitted");
        };
        let continuing = replace(&mut self.block, outer);
        self.push(Statement::Loop {
            body,
            continuing,
            break_if,
        });
    }

    fn end_switch(&mut self) {
        let Some(Bracket::Switch {
            outer,
            selector,
            cases,
        }) = self.brackets.pop()
        else {
            unreachable!("the end of the switch was admitted");
        };
        self.block = outer;
        self.push(Statement::Switch { selector, cases });
    }

    /// The function with its statements, once its end was admitted.
    pub fn finish(mut self) -> (Opener, Function, BodyPositions) {
        self.function.body = self.block;
        (self.opener, self.function, self.positions)
    }
}
