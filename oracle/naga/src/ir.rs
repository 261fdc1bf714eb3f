//! naga's IR with a `u32` for each field that can hold no handle and is neither a `u32` nor a `bool`.
//! The order of the fields and variants is that of naga's declarations.
use crate::{Arena, Block, DiagnosticFilterNode, FastIndexMap, Handle, Range, UniqueArena};
use std::num::NonZeroU32;

/// A value that is only compared.
pub type Mark = u32;

#[derive(Clone, Copy, Debug, PartialEq, Eq, Hash)]
pub enum ArraySize {
    Constant(NonZeroU32),
    Pending(Handle<Override>),
    Dynamic,
}

#[derive(Clone, Debug, PartialEq, Eq, Hash)]
pub struct StructMember {
    pub name: Mark,
    pub ty: Handle<Type>,
    pub binding: Mark,
    pub offset: u32,
}

#[derive(Clone, Debug, PartialEq, Eq, Hash)]
pub struct Type {
    /// An option, since the check of doc comments prints it. It is always there.
    pub name: Option<Mark>,
    pub inner: TypeInner,
}

#[derive(Clone, Debug, PartialEq, Eq, Hash)]
pub enum TypeInner {
    Scalar(Mark),
    Vector {
        size: Mark,
        scalar: Mark,
    },
    Matrix {
        columns: Mark,
        rows: Mark,
        scalar: Mark,
    },
    CooperativeMatrix {
        columns: Mark,
        rows: Mark,
        scalar: Mark,
        role: Mark,
    },
    Atomic(Mark),
    Pointer {
        base: Handle<Type>,
        space: Mark,
    },
    ValuePointer {
        size: Mark,
        scalar: Mark,
        space: Mark,
    },
    Array {
        base: Handle<Type>,
        size: ArraySize,
        stride: u32,
    },
    Struct {
        members: Vec<StructMember>,
        span: u32,
    },
    Image {
        dim: Mark,
        arrayed: bool,
        class: Mark,
    },
    Sampler {
        comparison: bool,
    },
    AccelerationStructure {
        vertex_return: bool,
    },
    RayQuery {
        vertex_return: bool,
    },
    BindingArray {
        base: Handle<Type>,
        size: ArraySize,
    },
}

#[derive(Clone, Debug)]
pub struct Override {
    pub name: Mark,
    pub id: Mark,
    pub ty: Handle<Type>,
    pub init: Option<Handle<Expression>>,
}

#[derive(Clone, Debug)]
pub struct Constant {
    pub name: Mark,
    pub ty: Handle<Type>,
    pub init: Handle<Expression>,
}

#[derive(Clone, Debug)]
pub struct GlobalVariable {
    pub name: Mark,
    pub space: Mark,
    pub binding: Mark,
    pub ty: Handle<Type>,
    pub init: Option<Handle<Expression>>,
    pub memory_decorations: Mark,
}

#[derive(Clone, Debug)]
pub struct LocalVariable {
    pub name: Mark,
    pub ty: Handle<Type>,
    pub init: Option<Handle<Expression>>,
}

#[derive(Clone, Copy, Debug)]
pub enum AtomicFunction {
    Add,
    Subtract,
    And,
    ExclusiveOr,
    InclusiveOr,
    Min,
    Max,
    Exchange { compare: Option<Handle<Expression>> },
}

#[derive(Clone, Copy, Debug)]
pub enum SampleLevel {
    Auto,
    Zero,
    Exact(Handle<Expression>),
    Bias(Handle<Expression>),
    Gradient {
        x: Handle<Expression>,
        y: Handle<Expression>,
    },
}

#[derive(Clone, Copy, Debug)]
pub enum ImageQuery {
    Size { level: Option<Handle<Expression>> },
    NumLevels,
    NumLayers,
    NumSamples,
}

#[derive(Clone, Copy, Debug)]
pub enum GatherMode {
    BroadcastFirst,
    Broadcast(Handle<Expression>),
    Shuffle(Handle<Expression>),
    ShuffleDown(Handle<Expression>),
    ShuffleUp(Handle<Expression>),
    ShuffleXor(Handle<Expression>),
    QuadBroadcast(Handle<Expression>),
    QuadSwap(Mark),
}

#[derive(Clone, Debug)]
pub struct CooperativeData {
    pub pointer: Handle<Expression>,
    pub stride: Handle<Expression>,
    pub row_major: bool,
}

#[derive(Clone, Debug)]
pub enum Expression {
    Literal(Mark),
    Constant(Handle<Constant>),
    Override(Handle<Override>),
    ZeroValue(Handle<Type>),
    Compose {
        ty: Handle<Type>,
        components: Vec<Handle<Expression>>,
    },
    Access {
        base: Handle<Expression>,
        index: Handle<Expression>,
    },
    AccessIndex {
        base: Handle<Expression>,
        index: u32,
    },
    Splat {
        size: Mark,
        value: Handle<Expression>,
    },
    Swizzle {
        size: Mark,
        vector: Handle<Expression>,
        pattern: Mark,
    },
    FunctionArgument(u32),
    GlobalVariable(Handle<GlobalVariable>),
    LocalVariable(Handle<LocalVariable>),
    Load {
        pointer: Handle<Expression>,
    },
    ImageSample {
        image: Handle<Expression>,
        sampler: Handle<Expression>,
        gather: Mark,
        coordinate: Handle<Expression>,
        array_index: Option<Handle<Expression>>,
        offset: Option<Handle<Expression>>,
        level: SampleLevel,
        depth_ref: Option<Handle<Expression>>,
        clamp_to_edge: bool,
    },
    ImageLoad {
        image: Handle<Expression>,
        coordinate: Handle<Expression>,
        array_index: Option<Handle<Expression>>,
        sample: Option<Handle<Expression>>,
        level: Option<Handle<Expression>>,
    },
    ImageQuery {
        image: Handle<Expression>,
        query: ImageQuery,
    },
    Unary {
        op: Mark,
        expr: Handle<Expression>,
    },
    Binary {
        op: Mark,
        left: Handle<Expression>,
        right: Handle<Expression>,
    },
    Select {
        condition: Handle<Expression>,
        accept: Handle<Expression>,
        reject: Handle<Expression>,
    },
    Derivative {
        axis: Mark,
        ctrl: Mark,
        expr: Handle<Expression>,
    },
    Relational {
        fun: Mark,
        argument: Handle<Expression>,
    },
    Math {
        fun: Mark,
        arg: Handle<Expression>,
        arg1: Option<Handle<Expression>>,
        arg2: Option<Handle<Expression>>,
        arg3: Option<Handle<Expression>>,
    },
    As {
        expr: Handle<Expression>,
        kind: Mark,
        convert: Mark,
    },
    CallResult(Handle<Function>),
    AtomicResult {
        ty: Handle<Type>,
        comparison: bool,
    },
    WorkGroupUniformLoadResult {
        ty: Handle<Type>,
    },
    ArrayLength(Handle<Expression>),
    RayQueryVertexPositions {
        query: Handle<Expression>,
        committed: bool,
    },
    RayQueryProceedResult,
    RayQueryGetIntersection {
        query: Handle<Expression>,
        committed: bool,
    },
    SubgroupBallotResult,
    SubgroupOperationResult {
        ty: Handle<Type>,
    },
    CooperativeLoad {
        columns: Mark,
        rows: Mark,
        role: Mark,
        data: CooperativeData,
    },
    CooperativeMultiplyAdd {
        a: Handle<Expression>,
        b: Handle<Expression>,
        c: Handle<Expression>,
    },
}

#[derive(Clone, Debug)]
pub struct SwitchCase {
    pub value: Mark,
    pub body: Block,
    pub fall_through: bool,
}

#[derive(Clone, Debug)]
pub enum RayQueryFunction {
    Initialize {
        acceleration_structure: Handle<Expression>,
        descriptor: Handle<Expression>,
    },
    Proceed {
        result: Handle<Expression>,
    },
    GenerateIntersection {
        hit_t: Handle<Expression>,
    },
    ConfirmIntersection,
    Terminate,
}

#[derive(Clone, Debug)]
pub enum Statement {
    Emit(Range<Expression>),
    Block(Block),
    If {
        condition: Handle<Expression>,
        accept: Block,
        reject: Block,
    },
    Switch {
        selector: Handle<Expression>,
        cases: Vec<SwitchCase>,
    },
    Loop {
        body: Block,
        continuing: Block,
        break_if: Option<Handle<Expression>>,
    },
    Break,
    Continue,
    Return {
        value: Option<Handle<Expression>>,
    },
    Kill,
    ControlBarrier(Mark),
    MemoryBarrier(Mark),
    Store {
        pointer: Handle<Expression>,
        value: Handle<Expression>,
    },
    ImageStore {
        image: Handle<Expression>,
        coordinate: Handle<Expression>,
        array_index: Option<Handle<Expression>>,
        value: Handle<Expression>,
    },
    Atomic {
        pointer: Handle<Expression>,
        fun: AtomicFunction,
        value: Handle<Expression>,
        result: Option<Handle<Expression>>,
    },
    ImageAtomic {
        image: Handle<Expression>,
        coordinate: Handle<Expression>,
        array_index: Option<Handle<Expression>>,
        fun: AtomicFunction,
        value: Handle<Expression>,
    },
    WorkGroupUniformLoad {
        pointer: Handle<Expression>,
        result: Handle<Expression>,
    },
    Call {
        function: Handle<Function>,
        arguments: Vec<Handle<Expression>>,
        result: Option<Handle<Expression>>,
    },
    RayQuery {
        query: Handle<Expression>,
        fun: RayQueryFunction,
    },
    RayPipelineFunction(RayPipelineFunction),
    SubgroupBallot {
        result: Handle<Expression>,
        predicate: Option<Handle<Expression>>,
    },
    SubgroupGather {
        mode: GatherMode,
        argument: Handle<Expression>,
        result: Handle<Expression>,
    },
    SubgroupCollectiveOperation {
        op: Mark,
        collective_op: Mark,
        argument: Handle<Expression>,
        result: Handle<Expression>,
    },
    CooperativeStore {
        target: Handle<Expression>,
        data: CooperativeData,
    },
}

#[derive(Clone, Debug)]
pub struct FunctionArgument {
    pub name: Mark,
    pub ty: Handle<Type>,
    pub binding: Mark,
}

#[derive(Clone, Debug)]
pub struct FunctionResult {
    pub ty: Handle<Type>,
    pub binding: Mark,
}

pub type NamedExpressions = FastIndexMap<Handle<Expression>, Mark>;

#[derive(Clone, Default)]
pub struct Function {
    pub name: Mark,
    pub arguments: Vec<FunctionArgument>,
    pub result: Option<FunctionResult>,
    pub local_variables: Arena<LocalVariable>,
    pub expressions: Arena<Expression>,
    pub named_expressions: NamedExpressions,
    pub body: Block,
    pub diagnostic_filter_leaf: Option<Handle<DiagnosticFilterNode>>,
}

#[derive(Clone)]
pub struct EntryPoint {
    pub name: Mark,
    pub stage: Mark,
    pub early_depth_test: Mark,
    pub workgroup_size: Mark,
    pub workgroup_size_overrides: Option<[Option<Handle<Expression>>; 3]>,
    pub function: Function,
    pub mesh_info: Option<MeshStageInfo>,
    pub task_payload: Option<Handle<GlobalVariable>>,
    pub incoming_ray_payload: Option<Handle<GlobalVariable>>,
}

#[derive(Clone, Default)]
pub struct SpecialTypes {
    pub ray_desc: Option<Handle<Type>>,
    pub ray_intersection: Option<Handle<Type>>,
    pub ray_vertex_return: Option<Handle<Type>>,
    pub external_texture_params: Option<Handle<Type>>,
    pub external_texture_transfer_function: Option<Handle<Type>>,
    pub predeclared_types: FastIndexMap<Mark, Handle<Type>>,
}

#[derive(Clone, Default)]
pub struct DocComments {
    pub types: FastIndexMap<Handle<Type>, Vec<String>>,
    pub struct_members: FastIndexMap<(Handle<Type>, usize), Vec<String>>,
    pub entry_points: FastIndexMap<usize, Vec<String>>,
    pub functions: FastIndexMap<Handle<Function>, Vec<String>>,
    pub constants: FastIndexMap<Handle<Constant>, Vec<String>>,
    pub global_variables: FastIndexMap<Handle<GlobalVariable>, Vec<String>>,
    pub module: Vec<String>,
}

#[derive(Clone, Debug)]
pub struct MeshStageInfo {
    pub topology: Mark,
    pub max_vertices: u32,
    pub max_vertices_override: Option<Handle<Expression>>,
    pub max_primitives: u32,
    pub max_primitives_override: Option<Handle<Expression>>,
    pub vertex_output_type: Handle<Type>,
    pub primitive_output_type: Handle<Type>,
    pub output_variable: Handle<GlobalVariable>,
}

#[derive(Clone, Copy, Debug)]
pub enum RayPipelineFunction {
    TraceRay {
        acceleration_structure: Handle<Expression>,
        descriptor: Handle<Expression>,
        payload: Handle<Expression>,
    },
}

#[derive(Clone, Default)]
pub struct Module {
    pub types: UniqueArena<Type>,
    pub special_types: SpecialTypes,
    pub constants: Arena<Constant>,
    pub overrides: Arena<Override>,
    pub global_variables: Arena<GlobalVariable>,
    pub global_expressions: Arena<Expression>,
    pub functions: Arena<Function>,
    pub entry_points: Vec<EntryPoint>,
    pub diagnostic_filters: Arena<DiagnosticFilterNode>,
    pub diagnostic_filter_leaf: Option<Handle<DiagnosticFilterNode>>,
    pub doc_comments: Option<Box<DocComments>>,
}
