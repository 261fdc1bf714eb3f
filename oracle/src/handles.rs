//! The expressions that expressions and statements name, in the order in which they are tested.
use naga::{
    AtomicFunction, Expression, GatherMode, Handle, ImageQuery, RayPipelineFunction,
    RayQueryFunction, SampleLevel, Statement,
};

type Operand = Handle<Expression>;

/// The operands of an expression.
pub fn operands(expression: &Expression) -> Vec<Operand> {
    let mut found = Vec::new();
    each_operand(expression, |operand| found.push(operand));
    found
}

/// Goes through the operands of an expression.
pub fn each_operand(expression: &Expression, visit: impl FnMut(Operand)) {
    match *expression {
        Expression::Compose { ref components, .. } => components.iter().copied().for_each(visit),
        Expression::Access { base, index } => [base, index].into_iter().for_each(visit),
        Expression::AccessIndex { base: operand, .. }
        | Expression::Splat { value: operand, .. }
        | Expression::Swizzle {
            vector: operand, ..
        }
        | Expression::Load { pointer: operand }
        | Expression::Unary { expr: operand, .. }
        | Expression::Derivative { expr: operand, .. }
        | Expression::Relational {
            argument: operand, ..
        }
        | Expression::As { expr: operand, .. }
        | Expression::ArrayLength(operand)
        | Expression::RayQueryVertexPositions { query: operand, .. }
        | Expression::RayQueryGetIntersection { query: operand, .. } => {
            [operand].into_iter().for_each(visit)
        }
        Expression::ImageSample {
            image,
            sampler,
            coordinate,
            array_index,
            offset,
            level,
            depth_ref,
            ..
        } => [image, sampler, coordinate]
            .into_iter()
            .chain(array_index)
            .chain(offset)
            .chain(level_operands(level))
            .chain(depth_ref)
            .for_each(visit),
        Expression::ImageLoad {
            image,
            coordinate,
            array_index,
            sample,
            level,
        } => [image, coordinate]
            .into_iter()
            .chain(array_index)
            .chain(sample)
            .chain(level)
            .for_each(visit),
        Expression::ImageQuery { image, query } => {
            let level = match query {
                ImageQuery::Size { level } => level,
                ImageQuery::NumLevels | ImageQuery::NumLayers | ImageQuery::NumSamples => None,
            };
            [image].into_iter().chain(level).for_each(visit)
        }
        Expression::Binary { left, right, .. } => [left, right].into_iter().for_each(visit),
        Expression::Select {
            condition,
            accept,
            reject,
        } => [condition, accept, reject].into_iter().for_each(visit),
        Expression::Math {
            arg,
            arg1,
            arg2,
            arg3,
            ..
        } => [arg]
            .into_iter()
            .chain(arg1)
            .chain(arg2)
            .chain(arg3)
            .for_each(visit),
        Expression::CooperativeLoad { ref data, .. } => {
            [data.pointer, data.stride].into_iter().for_each(visit)
        }
        Expression::CooperativeMultiplyAdd { a, b, c } => [a, b, c].into_iter().for_each(visit),
        Expression::Literal(_)
        | Expression::Constant(_)
        | Expression::Override(_)
        | Expression::ZeroValue(_)
        | Expression::FunctionArgument(_)
        | Expression::GlobalVariable(_)
        | Expression::LocalVariable(_)
        | Expression::CallResult(_)
        | Expression::AtomicResult { .. }
        | Expression::WorkGroupUniformLoadResult { .. }
        | Expression::RayQueryProceedResult
        | Expression::SubgroupBallotResult
        | Expression::SubgroupOperationResult { .. } => {}
    }
}

fn level_operands(level: SampleLevel) -> impl Iterator<Item = Operand> {
    let operands = match level {
        SampleLevel::Auto | SampleLevel::Zero => [None, None],
        SampleLevel::Exact(expression) | SampleLevel::Bias(expression) => [Some(expression), None],
        SampleLevel::Gradient { x, y } => [Some(x), Some(y)],
    };
    operands.into_iter().flatten()
}

/// The expressions that a statement names and that the check tests, but for those in its blocks, the arguments of a
/// `Call`, which are tested after its function, and the `break_if` of a `Loop`, which is tested after its blocks.
pub fn tested_expressions(statement: &Statement) -> Vec<Operand> {
    match *statement {
        Statement::If { condition, .. } => vec![condition],
        Statement::Switch { selector, .. } => vec![selector],
        Statement::Return { value } => value.into_iter().collect(),
        Statement::Store { pointer, value } => vec![pointer, value],
        Statement::ImageStore {
            image,
            coordinate,
            array_index,
            value,
        }
        | Statement::ImageAtomic {
            image,
            coordinate,
            array_index,
            value,
            ..
        } => {
            let mut found = vec![image, coordinate];
            found.extend(array_index);
            found.push(value);
            found
        }
        Statement::Atomic {
            pointer,
            fun,
            value,
            result,
        } => {
            let mut found = vec![pointer];
            if let AtomicFunction::Exchange { compare } = fun {
                found.extend(compare);
            }
            found.push(value);
            found.extend(result);
            found
        }
        Statement::WorkGroupUniformLoad { pointer, result } => vec![pointer, result],
        Statement::Call {
            ref arguments,
            result,
            ..
        } => {
            let mut found = arguments.clone();
            found.extend(result);
            found
        }
        Statement::RayQuery { query, ref fun } => {
            let mut found = vec![query];
            match *fun {
                RayQueryFunction::Initialize {
                    acceleration_structure,
                    descriptor,
                } => found.extend([acceleration_structure, descriptor]),
                RayQueryFunction::Proceed { result } => found.push(result),
                RayQueryFunction::GenerateIntersection { hit_t } => found.push(hit_t),
                RayQueryFunction::ConfirmIntersection | RayQueryFunction::Terminate => {}
            }
            found
        }
        Statement::RayPipelineFunction(RayPipelineFunction::TraceRay {
            acceleration_structure,
            descriptor,
            payload,
        }) => vec![acceleration_structure, descriptor, payload],
        Statement::SubgroupBallot { result, predicate } => {
            predicate.into_iter().chain([result]).collect()
        }
        Statement::SubgroupGather {
            mode,
            argument,
            result,
        } => {
            let mut found = vec![argument];
            match mode {
                GatherMode::Broadcast(index)
                | GatherMode::Shuffle(index)
                | GatherMode::ShuffleDown(index)
                | GatherMode::ShuffleUp(index)
                | GatherMode::ShuffleXor(index)
                | GatherMode::QuadBroadcast(index) => found.push(index),
                GatherMode::BroadcastFirst | GatherMode::QuadSwap(_) => {}
            }
            found.push(result);
            found
        }
        Statement::SubgroupCollectiveOperation {
            argument, result, ..
        } => vec![argument, result],
        Statement::CooperativeStore { target, ref data } => {
            vec![target, data.pointer, data.stride]
        }
        Statement::Emit(_)
        | Statement::Block(_)
        | Statement::Loop { .. }
        | Statement::Break
        | Statement::Continue
        | Statement::Kill
        | Statement::ControlBarrier(_)
        | Statement::MemoryBarrier(_) => Vec::new(),
    }
}
