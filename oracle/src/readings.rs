//! The two readings of docs/WALK.md over naga's arenas, with the operands that docs/CHECK.md gives the items of each
//! table.
use crate::handles;
use naga::{Block, DiagnosticFilterNode, Expression, Function, Statement, Type, TypeInner};

/// An item, which takes items of its own table.
pub trait Node {
    /// Goes through the numbers of the items that it takes, in order, each as often as it is named.
    fn each_operand(&self, visit: impl FnMut(usize));

    /// Whether it is steady where all that it takes is.
    fn can_be_steady(&self) -> bool {
        false
    }
}

impl Node for Type {
    fn each_operand(&self, mut visit: impl FnMut(usize)) {
        match self.inner {
            TypeInner::Pointer { base, .. }
            | TypeInner::Array { base, .. }
            | TypeInner::BindingArray { base, .. } => visit(base.index()),
            TypeInner::Struct { ref members, .. } => {
                members.iter().for_each(|member| visit(member.ty.index()))
            }
            TypeInner::Scalar(_)
            | TypeInner::Vector { .. }
            | TypeInner::Matrix { .. }
            | TypeInner::CooperativeMatrix { .. }
            | TypeInner::Atomic(_)
            | TypeInner::ValuePointer { .. }
            | TypeInner::Image { .. }
            | TypeInner::Sampler { .. }
            | TypeInner::AccelerationStructure { .. }
            | TypeInner::RayQuery { .. } => {}
        }
    }
}

impl Node for DiagnosticFilterNode {
    fn each_operand(&self, mut visit: impl FnMut(usize)) {
        if let Some(parent) = self.parent {
            visit(parent.index());
        }
    }
}

/// A function takes those that it has results of, and then those that it calls.
impl Node for Function {
    fn each_operand(&self, mut visit: impl FnMut(usize)) {
        for (_, expression) in self.expressions.iter() {
            if let Expression::CallResult(function) = *expression {
                visit(function.index());
            }
        }
        each_call(&self.body, &mut visit);
    }
}

fn each_call(block: &Block, visit: &mut impl FnMut(usize)) {
    for statement in block.iter() {
        match statement {
            Statement::Call { function, .. } => visit(function.index()),
            Statement::Block(block) => each_call(block, visit),
            Statement::If { accept, reject, .. } => {
                each_call(accept, visit);
                each_call(reject, visit);
            }
            Statement::Switch { cases, .. } => {
                cases.iter().for_each(|case| each_call(&case.body, visit))
            }
            Statement::Loop {
                body, continuing, ..
            } => {
                each_call(body, visit);
                each_call(continuing, visit);
            }
            _ => {}
        }
    }
}

impl Node for Expression {
    fn each_operand(&self, mut visit: impl FnMut(usize)) {
        handles::each_operand(self, |operand| visit(operand.index()));
    }

    fn can_be_steady(&self) -> bool {
        matches!(
            self,
            Expression::Literal(_)
                | Expression::Constant(_)
                | Expression::ZeroValue(_)
                | Expression::Compose { .. }
                | Expression::Access { .. }
                | Expression::AccessIndex { .. }
                | Expression::Splat { .. }
                | Expression::Swizzle { .. }
                | Expression::Unary { .. }
                | Expression::Binary { .. }
                | Expression::Select { .. }
                | Expression::Relational { .. }
                | Expression::Math { .. }
                | Expression::As { .. }
        )
    }
}

/// The depth of each item of a table: one more than that of the deepest item that it takes.
pub fn depths<'a, T: Node + 'a>(items: impl Iterator<Item = &'a T>) -> Vec<u32> {
    let mut depths: Vec<u32> = Vec::with_capacity(items.size_hint().0);
    for item in items {
        let mut deepest = 0;
        item.each_operand(|operand| deepest = deepest.max(depths[operand]));
        depths.push(deepest.saturating_add(1));
    }
    depths
}

/// Whether each item of a table is steady, by 1 and 0: it can be, and all that it takes is.
pub fn steady<'a, T: Node + 'a>(items: impl Iterator<Item = &'a T>) -> Vec<u8> {
    let mut steady: Vec<u8> = Vec::with_capacity(items.size_hint().0);
    for item in items {
        let mut all = item.can_be_steady();
        item.each_operand(|operand| all &= steady[operand] == 1);
        steady.push(all.into());
    }
    steady
}

/// How many operands all items of a table have together.
pub fn takes<'a, T: Node + 'a>(items: impl Iterator<Item = &'a T>) -> usize {
    let mut count = 0;
    items.for_each(|item| item.each_operand(|_| count += 1));
    count
}
