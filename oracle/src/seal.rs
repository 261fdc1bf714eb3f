//! Sealing, from docs/SEAL.md: what the check leaves out, tested on naga's module beside the positions of its items.
use crate::handles::operands;
use crate::positions::{BodyPositions, Positions};
use crate::statements::statements;
use crate::verdict::sealing::{EARLIER, INSIDE, PLACED};
use crate::verdict::{kind, Fault, Verdict};
use naga::{
    ArraySize, AtomicFunction, Expression, Function, Handle, Module, Override, Statement, Type,
    TypeInner,
};

/// The first of the five rules' tests that fails on a module that the check passes, or zeros.
pub fn seal(module: &Module, positions: &Positions) -> Verdict {
    let sealing = Sealing { module, positions };
    sealing.rules().err().unwrap_or_default()
}

type Tested = Result<(), Verdict>;

fn refuse(number: u32, kind: u32, first: usize, second: usize, position: usize) -> Tested {
    let fault = Fault {
        number,
        kind,
        first,
        second,
    };
    Err(fault.at(position))
}

/// The number of a handle, or of an argument, is below the number of items.
fn inside(kind: u32, number: usize, count: usize, position: usize) -> Tested {
    if number < count {
        return Ok(());
    }
    refuse(INSIDE, kind, number, 0, position)
}

fn earlier<T>(kind: u32, subject: Handle<T>, named: Handle<T>, position: usize) -> Tested {
    if named.index() < subject.index() {
        return Ok(());
    }
    refuse(EARLIER, kind, subject.index(), named.index(), position)
}

/// The type handle of an expression.
fn type_of(expression: &Expression) -> Option<Handle<Type>> {
    match *expression {
        Expression::ZeroValue(ty)
        | Expression::Compose { ty, .. }
        | Expression::AtomicResult { ty, .. }
        | Expression::WorkGroupUniformLoadResult { ty }
        | Expression::SubgroupOperationResult { ty } => Some(ty),
        _ => None,
    }
}

/// Whether an expression may stand in bodies only.
fn belongs_to_bodies(expression: &Expression) -> bool {
    matches!(
        expression,
        Expression::FunctionArgument(_)
            | Expression::GlobalVariable(_)
            | Expression::LocalVariable(_)
            | Expression::CallResult(_)
    )
}

/// The override that is the size of a type.
fn size_of(ty: &Type) -> Option<Handle<Override>> {
    match ty.inner {
        TypeInner::Array { size, .. } | TypeInner::BindingArray { size, .. } => match size {
            ArraySize::Pending(size) => Some(size),
            ArraySize::Constant(_) | ArraySize::Dynamic => None,
        },
        _ => None,
    }
}

/// What an `ImageAtomic` compares with.
fn compared_by(statement: &Statement) -> Option<Handle<Expression>> {
    match *statement {
        Statement::ImageAtomic {
            fun: AtomicFunction::Exchange { compare },
            ..
        } => compare,
        _ => None,
    }
}

/// A function, or that of an entry point, with its positions.
type Body<'a> = (&'a Function, &'a BodyPositions);

struct Sealing<'a> {
    module: &'a Module,
    positions: &'a Positions,
}

impl<'a> Sealing<'a> {
    fn rules(&self) -> Tested {
        self.global_expressions()?;
        self.sizes()?;
        self.expressions_of_bodies()?;
        self.calls()?;
        self.special_types()?;
        self.incoming_payloads()?;
        self.compared_values()
    }

    /// The bodies of the functions and then those of the entry points.
    fn bodies(&self) -> impl Iterator<Item = Body<'a>> {
        let (module, positions) = (self.module, self.positions);
        let functions = module.functions.iter().map(|(_, function)| function);
        let entry_points = module.entry_points.iter().map(|it| &it.function);
        let of_functions = functions.zip(&positions.functions);
        of_functions.chain(entry_points.zip(&positions.entry_points))
    }

    fn type_inside(&self, ty: Handle<Type>, position: usize) -> Tested {
        inside(kind::TYPE, ty.index(), self.module.types.len(), position)
    }

    /// Rule 1.
    fn global_expressions(&self) -> Tested {
        let positions = &self.positions.global_expressions;
        for ((number, expression), &at) in self.module.global_expressions.iter().zip(positions) {
            if belongs_to_bodies(expression) {
                return refuse(PLACED, kind::EXPRESSION, number.index(), 0, at);
            }
            for operand in operands(expression) {
                earlier(kind::EXPRESSION, number, operand, at)?;
            }
            if let Some(ty) = type_of(expression) {
                self.type_inside(ty, at)?;
            }
        }
        Ok(())
    }

    /// Rule 2.
    fn sizes(&self) -> Tested {
        let positions = &self.positions.types;
        for ((number, ty), &at) in self.module.types.iter().zip(positions) {
            let size = size_of(ty).map(|size| &self.module.overrides[size]);
            if let Some(init) = size.and_then(|size| size.init) {
                self.types_up_to(init, number, at)?;
            }
        }
        Ok(())
    }

    /// All types that global expressions up to this one name are earlier than this type.
    fn types_up_to(&self, last: Handle<Expression>, ty: Handle<Type>, position: usize) -> Tested {
        for (number, expression) in self.module.global_expressions.iter() {
            if number > last {
                break;
            }
            for named in self.types_named_by(expression) {
                earlier(kind::TYPE, ty, named, position)?;
            }
        }
        Ok(())
    }

    fn types_named_by(&self, expression: &Expression) -> impl Iterator<Item = Handle<Type>> {
        let of_item = match *expression {
            Expression::Constant(constant) => Some(self.module.constants[constant].ty),
            Expression::Override(item) => Some(self.module.overrides[item].ty),
            _ => None,
        };
        type_of(expression).into_iter().chain(of_item)
    }

    /// Rule 3.
    fn expressions_of_bodies(&self) -> Tested {
        for (function, positions) in self.bodies() {
            let arguments = function.arguments.len();
            for ((_, expression), &at) in function.expressions.iter().zip(&positions.expressions) {
                if let Some(ty) = type_of(expression) {
                    self.type_inside(ty, at)?;
                }
                if let Expression::FunctionArgument(number) = *expression {
                    inside(kind::ARGUMENT, number as usize, arguments, at)?;
                }
            }
        }
        Ok(())
    }

    /// Rule 4.
    fn calls(&self) -> Tested {
        let positions = &self.positions.functions;
        for ((number, function), body) in self.module.functions.iter().zip(positions) {
            for placed in statements(function, body) {
                if let Statement::Call { function, .. } = *placed.statement {
                    earlier(kind::FUNCTION, number, function, body.opener)?;
                }
            }
        }
        Ok(())
    }

    /// Rule 5, of types.
    fn special_types(&self) -> Tested {
        let special = &self.module.special_types;
        let external = [
            special.external_texture_params,
            special.external_texture_transfer_function,
        ];
        for ty in external.into_iter().flatten() {
            self.type_inside(ty, self.positions.special_types)?;
        }
        for predeclared in &self.positions.predeclared_types {
            self.type_inside(predeclared.ty, predeclared.position)?;
        }
        Ok(())
    }

    /// Rule 5, of entry points.
    fn incoming_payloads(&self) -> Tested {
        let count = self.module.global_variables.len();
        let positions = &self.positions.entry_points;
        for (entry_point, body) in self.module.entry_points.iter().zip(positions) {
            if let Some(payload) = entry_point.incoming_ray_payload {
                inside(kind::GLOBAL_VARIABLE, payload.index(), count, body.opener)?;
            }
        }
        Ok(())
    }

    /// Rule 5, of each `ImageAtomic`.
    fn compared_values(&self) -> Tested {
        for (function, positions) in self.bodies() {
            let count = function.expressions.len();
            for placed in statements(function, positions) {
                if let Some(compare) = compared_by(placed.statement) {
                    inside(kind::EXPRESSION, compare.index(), count, placed.position)?;
                }
            }
        }
        Ok(())
    }
}
