//! A record read into the values of naga's IR.
use crate::image::{BadField, Fields};
use crate::refusal::Refusal;
use naga::{
    Constant, DiagnosticFilterNode, EntryPoint, Expression, Function, FunctionArgument,
    FunctionResult, GlobalVariable, Handle, LocalVariable, Mark, Override, Range, Statement,
    StructMember, Type, TypeInner,
};

/// A record. What records before or after it add, such as members and blocks, is empty.
pub enum Record {
    Member(StructMember),
    Operand(Handle<Expression>),
    Override(Override),
    Constant(Constant),
    GlobalVariable(GlobalVariable),
    SpecialTypes([Option<Handle<Type>>; 5]),
    PredeclaredType(Mark, Handle<Type>),
    FilterNode(DiagnosticFilterNode),
    FilterLeaf(Option<Handle<DiagnosticFilterNode>>),
    Function(Box<Function>),
    EntryPoint(Box<EntryPoint>),
    Argument(FunctionArgument),
    Result(FunctionResult),
    LocalVariable(LocalVariable),
    Type(Type),
    Named(Handle<Expression>, Mark),
    EndFunction,
    Expression(Expression),
    /// A statement without blocks.
    Statement(Statement),
    Block,
    If(Handle<Expression>),
    Switch(Handle<Expression>),
    Loop,
    End,
    EndLoop(Option<Handle<Expression>>),
    Case {
        value: Mark,
        fall_through: bool,
    },
    EndSwitch,
}

impl Record {
    /// Reads a part of an image, or answers refusal 1, 2 or 3.
    pub fn read(part: &[u8]) -> Result<Record, Refusal> {
        let (&kind, body) = part.split_first().ok_or(Refusal::NoSuchKind)?;
        let length = crate::layout::length(kind).ok_or(Refusal::NoSuchKind)?;
        if part.len() != length {
            return Err(Refusal::WrongLength);
        }
        let mut fields = Fields::new(body);
        let record = Record::of_kind(kind, &mut fields).map_err(|BadField| Refusal::BadField)?;
        debug_assert!(fields.is_empty(), "kind {kind} is read to its end");
        Ok(record)
    }

    fn of_kind(kind: u8, fields: &mut Fields<'_>) -> Result<Record, BadField> {
        match kind {
            16..=29 => return Ok(Record::Type(read_type(kind, fields)?)),
            64..=97 => return Ok(Record::Expression(read_expression(kind, fields)?)),
            128..=154 => return read_statement(kind, fields),
            _ => {}
        }
        Ok(match kind {
            1 => Record::Member(StructMember {
                name: fields.word(),
                ty: fields.handle()?,
                binding: fields.word(),
                offset: fields.word(),
            }),
            2 => Record::Operand(fields.handle()?),
            3 => Record::Override(Override {
                name: fields.word(),
                id: fields.word(),
                ty: fields.handle()?,
                init: fields.optional(),
            }),
            4 => Record::Constant(Constant {
                name: fields.word(),
                ty: fields.handle()?,
                init: fields.handle()?,
            }),
            5 => Record::GlobalVariable(GlobalVariable {
                name: fields.word(),
                space: fields.word(),
                binding: fields.word(),
                ty: fields.handle()?,
                init: fields.optional(),
                memory_decorations: fields.word(),
            }),
            6 => Record::SpecialTypes(std::array::from_fn(|_| fields.optional())),
            7 => Record::PredeclaredType(fields.word(), fields.handle()?),
            8 => Record::FilterNode(DiagnosticFilterNode {
                inner: fields.word(),
                parent: fields.optional(),
            }),
            9 => Record::FilterLeaf(fields.optional()),
            11 => Record::Function(Box::new(Function {
                name: fields.word(),
                diagnostic_filter_leaf: fields.optional(),
                ..Function::default()
            })),
            12 => Record::EntryPoint(Box::new(read_entry_point(fields)?)),
            13 => Record::Argument(FunctionArgument {
                name: fields.word(),
                ty: fields.handle()?,
                binding: fields.word(),
            }),
            14 => Record::Result(FunctionResult {
                ty: fields.handle()?,
                binding: fields.word(),
            }),
            15 => Record::LocalVariable(LocalVariable {
                name: fields.word(),
                ty: fields.handle()?,
                init: fields.optional(),
            }),
            30 => Record::Named(fields.handle()?, fields.word()),
            31 => Record::EndFunction,
            _ => unreachable!("{kind} has a length and so is a kind"),
        })
    }
}

fn read_entry_point(fields: &mut Fields<'_>) -> Result<EntryPoint, BadField> {
    let name = fields.word();
    let stage = fields.word();
    let early_depth_test = fields.word();
    let workgroup_size = fields.word();
    let sizes = std::array::from_fn(|_| fields.optional());
    Ok(EntryPoint {
        name,
        stage,
        early_depth_test,
        workgroup_size,
        workgroup_size_overrides: sizes.iter().any(Option::is_some).then_some(sizes),
        function: Function {
            diagnostic_filter_leaf: fields.optional(),
            ..Function::default()
        },
        mesh_info: fields.mesh_info()?,
        task_payload: fields.optional(),
        incoming_ray_payload: fields.optional(),
    })
}

fn read_type(kind: u8, fields: &mut Fields<'_>) -> Result<Type, BadField> {
    let name = Some(fields.word());
    let inner = match kind {
        16 => TypeInner::Scalar(fields.word()),
        17 => TypeInner::Vector {
            size: fields.word(),
            scalar: fields.word(),
        },
        18 => TypeInner::Matrix {
            columns: fields.word(),
            rows: fields.word(),
            scalar: fields.word(),
        },
        19 => TypeInner::CooperativeMatrix {
            columns: fields.word(),
            rows: fields.word(),
            scalar: fields.word(),
            role: fields.word(),
        },
        20 => TypeInner::Atomic(fields.word()),
        21 => TypeInner::Pointer {
            base: fields.handle()?,
            space: fields.word(),
        },
        22 => TypeInner::ValuePointer {
            size: fields.word(),
            scalar: fields.word(),
            space: fields.word(),
        },
        23 => TypeInner::Array {
            base: fields.handle()?,
            size: fields.array_size()?,
            stride: fields.word(),
        },
        24 => TypeInner::Struct {
            members: Vec::new(),
            span: fields.word(),
        },
        25 => TypeInner::Image {
            dim: fields.word(),
            arrayed: fields.flag()?,
            class: fields.word(),
        },
        26 => TypeInner::Sampler {
            comparison: fields.flag()?,
        },
        27 => TypeInner::AccelerationStructure {
            vertex_return: fields.flag()?,
        },
        28 => TypeInner::RayQuery {
            vertex_return: fields.flag()?,
        },
        29 => TypeInner::BindingArray {
            base: fields.handle()?,
            size: fields.array_size()?,
        },
        _ => unreachable!("{kind} is a kind of type"),
    };
    Ok(Type { name, inner })
}

fn read_expression(kind: u8, fields: &mut Fields<'_>) -> Result<Expression, BadField> {
    Ok(match kind {
        64 => Expression::Literal(fields.word()),
        65 => Expression::Constant(fields.handle()?),
        66 => Expression::Override(fields.handle()?),
        67 => Expression::ZeroValue(fields.handle()?),
        68 => Expression::Compose {
            ty: fields.handle()?,
            components: Vec::new(),
        },
        69 => Expression::Access {
            base: fields.handle()?,
            index: fields.handle()?,
        },
        70 => Expression::AccessIndex {
            base: fields.handle()?,
            index: fields.word(),
        },
        71 => Expression::Splat {
            size: fields.word(),
            value: fields.handle()?,
        },
        72 => Expression::Swizzle {
            size: fields.word(),
            vector: fields.handle()?,
            pattern: fields.word(),
        },
        73 => Expression::FunctionArgument(fields.word()),
        74 => Expression::GlobalVariable(fields.handle()?),
        75 => Expression::LocalVariable(fields.handle()?),
        76 => Expression::Load {
            pointer: fields.handle()?,
        },
        77 => Expression::ImageSample {
            image: fields.handle()?,
            sampler: fields.handle()?,
            gather: fields.word(),
            coordinate: fields.handle()?,
            array_index: fields.optional(),
            offset: fields.optional(),
            level: fields.sample_level()?,
            depth_ref: fields.optional(),
            clamp_to_edge: fields.flag()?,
        },
        78 => Expression::ImageLoad {
            image: fields.handle()?,
            coordinate: fields.handle()?,
            array_index: fields.optional(),
            sample: fields.optional(),
            level: fields.optional(),
        },
        79 => Expression::ImageQuery {
            image: fields.handle()?,
            query: fields.image_query()?,
        },
        80 => Expression::Unary {
            op: fields.word(),
            expr: fields.handle()?,
        },
        81 => Expression::Binary {
            op: fields.word(),
            left: fields.handle()?,
            right: fields.handle()?,
        },
        82 => Expression::Select {
            condition: fields.handle()?,
            accept: fields.handle()?,
            reject: fields.handle()?,
        },
        83 => Expression::Derivative {
            axis: fields.word(),
            ctrl: fields.word(),
            expr: fields.handle()?,
        },
        84 => Expression::Relational {
            fun: fields.word(),
            argument: fields.handle()?,
        },
        85 => Expression::Math {
            fun: fields.word(),
            arg: fields.handle()?,
            arg1: fields.optional(),
            arg2: fields.optional(),
            arg3: fields.optional(),
        },
        86 => Expression::As {
            expr: fields.handle()?,
            kind: fields.word(),
            convert: fields.word(),
        },
        87 => Expression::CallResult(fields.handle()?),
        88 => Expression::AtomicResult {
            ty: fields.handle()?,
            comparison: fields.flag()?,
        },
        89 => Expression::WorkGroupUniformLoadResult {
            ty: fields.handle()?,
        },
        90 => Expression::ArrayLength(fields.handle()?),
        91 => Expression::RayQueryVertexPositions {
            query: fields.handle()?,
            committed: fields.flag()?,
        },
        92 => Expression::RayQueryProceedResult,
        93 => Expression::RayQueryGetIntersection {
            query: fields.handle()?,
            committed: fields.flag()?,
        },
        94 => Expression::SubgroupBallotResult,
        95 => Expression::SubgroupOperationResult {
            ty: fields.handle()?,
        },
        96 => Expression::CooperativeLoad {
            columns: fields.word(),
            rows: fields.word(),
            role: fields.word(),
            data: fields.cooperative_data()?,
        },
        97 => Expression::CooperativeMultiplyAdd {
            a: fields.handle()?,
            b: fields.handle()?,
            c: fields.handle()?,
        },
        _ => unreachable!("{kind} is a kind of expression"),
    })
}

fn read_statement(kind: u8, fields: &mut Fields<'_>) -> Result<Record, BadField> {
    Ok(match kind {
        129 => Record::Block,
        130 => Record::If(fields.handle()?),
        131 => Record::Switch(fields.handle()?),
        132 => Record::Loop,
        151 => Record::End,
        152 => Record::EndLoop(fields.optional()),
        153 => Record::Case {
            value: fields.word(),
            fall_through: fields.flag()?,
        },
        154 => Record::EndSwitch,
        _ => Record::Statement(read_plain_statement(kind, fields)?),
    })
}

fn read_plain_statement(kind: u8, fields: &mut Fields<'_>) -> Result<Statement, BadField> {
    Ok(match kind {
        128 => Statement::Emit(Range::of_ends(fields.word(), fields.word())),
        133 => Statement::Break,
        134 => Statement::Continue,
        135 => Statement::Return {
            value: fields.optional(),
        },
        136 => Statement::Kill,
        137 => Statement::ControlBarrier(fields.word()),
        138 => Statement::MemoryBarrier(fields.word()),
        139 => Statement::Store {
            pointer: fields.handle()?,
            value: fields.handle()?,
        },
        140 => Statement::ImageStore {
            image: fields.handle()?,
            coordinate: fields.handle()?,
            array_index: fields.optional(),
            value: fields.handle()?,
        },
        141 => Statement::Atomic {
            pointer: fields.handle()?,
            fun: fields.atomic_function()?,
            value: fields.handle()?,
            result: fields.optional(),
        },
        142 => Statement::ImageAtomic {
            image: fields.handle()?,
            coordinate: fields.handle()?,
            array_index: fields.optional(),
            fun: fields.atomic_function()?,
            value: fields.handle()?,
        },
        143 => Statement::WorkGroupUniformLoad {
            pointer: fields.handle()?,
            result: fields.handle()?,
        },
        144 => Statement::Call {
            function: fields.handle()?,
            arguments: Vec::new(),
            result: fields.optional(),
        },
        145 => Statement::RayQuery {
            query: fields.handle()?,
            fun: fields.ray_query_function()?,
        },
        146 => Statement::RayPipelineFunction(fields.ray_pipeline_function()?),
        147 => Statement::SubgroupBallot {
            result: fields.handle()?,
            predicate: fields.optional(),
        },
        148 => Statement::SubgroupGather {
            mode: fields.gather_mode()?,
            argument: fields.handle()?,
            result: fields.handle()?,
        },
        149 => Statement::SubgroupCollectiveOperation {
            op: fields.word(),
            collective_op: fields.word(),
            argument: fields.handle()?,
            result: fields.handle()?,
        },
        150 => Statement::CooperativeStore {
            target: fields.handle()?,
            data: fields.cooperative_data()?,
        },
        _ => unreachable!("{kind} is a kind of statement"),
    })
}
