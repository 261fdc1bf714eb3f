//! An image decoded into naga's module, with the refusals of put, from docs/FORMAT.md and docs/DRAFTS.md.
use crate::body::{OpenBody, Opener};
use crate::image::Parts;
use crate::positions::{note, Positions, PredeclaredType};
use crate::record::Record;
use crate::refusal::Refusal;
use naga::{
    EntryPoint, Expression, Function, Handle, Module, Span, SpecialTypes, Statement, StructMember,
    Type, TypeInner,
};
use std::mem::take;

/// How many bytes and records a draft may keep.
#[derive(Clone, Copy, PartialEq, Eq)]
pub struct Memory {
    pub bytes: usize,
    pub slots: usize,
}

impl Memory {
    pub const SMALL: Memory = Memory {
        bytes: 1_048_576,
        slots: 65_536,
    };
    pub const LARGE: Memory = Memory {
        bytes: 4_194_304,
        slots: 262_144,
    };
}

/// The module that the records of an image make.
pub struct Decoded {
    pub module: Module,
    pub positions: Positions,
    /// Whether no function is open and no record waits.
    pub finished: bool,
}

/// Records that wait for the one that takes them.
enum Waiting {
    Nothing,
    Members(Vec<StructMember>),
    Operands(Vec<Handle<Expression>>),
}

struct Decoder<const PLACED: bool> {
    memory: Memory,
    module: Module,
    positions: Positions,
    open: Option<OpenBody<PLACED>>,
    waiting: Waiting,
    waiting_bytes: usize,
    used: usize,
    kept: usize,
}

/// Puts the records of an image on a new draft, up to the first refusal. Positions are noted only where `PLACED` says so.
pub fn decode<const PLACED: bool>(image: &[u8], memory: Memory) -> Result<Decoded, Refusal> {
    let mut decoder: Decoder<PLACED> = Decoder {
        memory,
        module: Module::default(),
        positions: Positions::default(),
        open: None,
        waiting: Waiting::Nothing,
        waiting_bytes: 0,
        used: 0,
        kept: 0,
    };
    for part in Parts::new(image) {
        decoder.put(part)?;
    }
    Ok(Decoded {
        finished: decoder.open.is_none() && matches!(decoder.waiting, Waiting::Nothing),
        module: decoder.module,
        positions: decoder.positions,
    })
}

impl<const PLACED: bool> Decoder<PLACED> {
    fn put(&mut self, part: &[u8]) -> Result<(), Refusal> {
        let record = Record::read(part)?;
        self.admit(part[0], &record)?;
        match record {
            Record::Type(ty) => self.add_type(ty, part.len()),
            _ => {
                let position = self.keep(part.len())?;
                self.add(record, position, part.len());
                Ok(())
            }
        }
    }

    /// Refusals 4 and 5.
    fn admit(&self, kind: u8, record: &Record) -> Result<(), Refusal> {
        let may_stand = match &self.open {
            Some(_) => !matches!(kind, 1 | 3..=9 | 11 | 12 | 16..=29),
            None => !matches!(kind, 13..=15 | 30 | 31 | 128..=154),
        };
        let may_follow = match self.waiting {
            Waiting::Nothing => true,
            Waiting::Members(_) => matches!(kind, 1 | 24),
            Waiting::Operands(_) => matches!(kind, 2 | 68 | 144),
        };
        if !may_stand || !may_follow {
            return Err(Refusal::Misplaced);
        }
        match &self.open {
            Some(body) => body.admit(record),
            None => Ok(()),
        }
    }

    /// Takes a slot and so many bytes, or answers refusal 6. The position of the record is answered.
    fn keep(&mut self, length: usize) -> Result<usize, Refusal> {
        if self.memory.bytes - self.used < length || self.kept == self.memory.slots {
            return Err(Refusal::Full);
        }
        let position = self.kept;
        self.used += length;
        self.kept += 1;
        Ok(position)
    }

    /// Adds a type, unless it equals an earlier one: then its members are given back.
    fn add_type(&mut self, mut ty: Type, length: usize) -> Result<(), Refusal> {
        let mut taken = 0;
        if let TypeInner::Struct { members, .. } = &mut ty.inner {
            *members = self.take_members();
            taken = members.len();
        }
        let count = self.module.types.len();
        self.module.types.insert(ty, Span::default());
        if self.module.types.len() > count {
            let position = self.keep(length)?;
            note::<PLACED>(&mut self.positions.types, position);
        } else {
            self.kept -= taken;
            self.used -= self.waiting_bytes;
        }
        self.waiting_bytes = 0;
        Ok(())
    }

    fn take_members(&mut self) -> Vec<StructMember> {
        match std::mem::replace(&mut self.waiting, Waiting::Nothing) {
            Waiting::Members(members) => members,
            _ => Vec::new(),
        }
    }

    fn take_operands(&mut self) -> Vec<Handle<Expression>> {
        match std::mem::replace(&mut self.waiting, Waiting::Nothing) {
            Waiting::Operands(operands) => operands,
            _ => Vec::new(),
        }
    }

    fn add(&mut self, record: Record, position: usize, length: usize) {
        match record {
            Record::Member(member) => {
                self.waiting_bytes += length;
                match &mut self.waiting {
                    Waiting::Members(members) => members.push(member),
                    waiting => *waiting = Waiting::Members(vec![member]),
                }
            }
            Record::Operand(operand) => match &mut self.waiting {
                Waiting::Operands(operands) => operands.push(operand),
                waiting => *waiting = Waiting::Operands(vec![operand]),
            },
            Record::Function(function) => self.begin(Opener::Function, *function, position),
            Record::EntryPoint(mut entry_point) => {
                let function = take(&mut entry_point.function);
                self.begin(Opener::EntryPoint(entry_point), function, position);
            }
            Record::EndFunction => self.end(),
            Record::Expression(mut expression) => {
                if let Expression::Compose { components, .. } = &mut expression {
                    *components = self.take_operands();
                }
                self.add_expression(expression, position);
            }
            Record::Statement(Statement::Call {
                function, result, ..
            }) => {
                let arguments = self.take_operands();
                let call = Statement::Call {
                    function,
                    arguments,
                    result,
                };
                self.body().add_statement(Record::Statement(call), position);
            }
            Record::Argument(argument) => {
                let body = self.body();
                body.function.arguments.push(argument);
                note::<PLACED>(&mut body.positions.arguments, position);
            }
            Record::Result(result) => {
                let body = self.body();
                body.function.result = Some(result);
                body.positions.result = position;
            }
            Record::LocalVariable(variable) => {
                let body = self.body();
                body.function
                    .local_variables
                    .append(variable, Span::default());
                note::<PLACED>(&mut body.positions.local_variables, position);
            }
            Record::Named(expression, name) => {
                let body = self.body();
                let named = &mut body.function.named_expressions;
                if named.insert(expression, name).is_none() {
                    note::<PLACED>(&mut body.positions.named_expressions, position);
                }
            }
            Record::Statement(_)
            | Record::Block
            | Record::If(_)
            | Record::Switch(_)
            | Record::Loop
            | Record::End
            | Record::EndLoop(_)
            | Record::Case { .. }
            | Record::EndSwitch => self.body().add_statement(record, position),
            _ => self.add_to_module(record, position),
        }
    }

    fn add_to_module(&mut self, record: Record, position: usize) {
        let module = &mut self.module;
        let positions = &mut self.positions;
        match record {
            Record::Override(item) => {
                module.overrides.append(item, Span::default());
                note::<PLACED>(&mut positions.overrides, position);
            }
            Record::Constant(item) => {
                module.constants.append(item, Span::default());
                note::<PLACED>(&mut positions.constants, position);
            }
            Record::GlobalVariable(item) => {
                module.global_variables.append(item, Span::default());
                note::<PLACED>(&mut positions.global_variables, position);
            }
            Record::SpecialTypes(special) => {
                let [ray_desc, ray_intersection, ray_vertex_return, external_texture_params, external_texture_transfer_function] =
                    special;
                module.special_types = SpecialTypes {
                    ray_desc,
                    ray_intersection,
                    ray_vertex_return,
                    external_texture_params,
                    external_texture_transfer_function,
                    predeclared_types: take(&mut module.special_types.predeclared_types),
                };
                positions.special_types = position;
            }
            Record::PredeclaredType(predeclared, ty) => {
                module
                    .special_types
                    .predeclared_types
                    .insert(predeclared, ty);
                if PLACED {
                    positions
                        .predeclared_types
                        .push(PredeclaredType { ty, position });
                }
            }
            Record::FilterNode(node) => {
                module.diagnostic_filters.append(node, Span::default());
                note::<PLACED>(&mut positions.diagnostic_filters, position);
            }
            Record::FilterLeaf(leaf) => {
                module.diagnostic_filter_leaf = leaf;
                positions.diagnostic_filter_leaf = position;
            }
            _ => unreachable!("all other records join a body or wait"),
        }
    }

    fn body(&mut self) -> &mut OpenBody<PLACED> {
        self.open.as_mut().expect("the record was admitted inside")
    }

    fn begin(&mut self, opener: Opener, function: Function, position: usize) {
        self.open = Some(OpenBody::new(opener, function, position));
    }

    fn end(&mut self) {
        let body = self.open.take().expect("the end was admitted inside");
        let (opener, function, positions) = body.finish();
        match opener {
            Opener::Function => {
                self.module.functions.append(function, Span::default());
                self.positions.functions.push(positions);
            }
            Opener::EntryPoint(entry_point) => {
                self.module.entry_points.push(EntryPoint {
                    function,
                    ..*entry_point
                });
                self.positions.entry_points.push(positions);
            }
        }
    }

    fn add_expression(&mut self, expression: Expression, position: usize) {
        match &mut self.open {
            Some(body) => {
                body.function
                    .expressions
                    .append(expression, Span::default());
                note::<PLACED>(&mut body.positions.expressions, position);
            }
            None => {
                self.module
                    .global_expressions
                    .append(expression, Span::default());
                note::<PLACED>(&mut self.positions.global_expressions, position);
            }
        }
    }
}
