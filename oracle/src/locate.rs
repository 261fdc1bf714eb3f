//! Where the first test that fails stands: the tests of docs/CHECK.md gone through on naga's module, in naga's order,
//! beside the positions of its items. naga's errors say all of a fault but its position.
use crate::handles::{operands, tested_expressions};
use crate::positions::{BodyPositions, Positions};
use crate::verdict::{kind, Fault, Verdict, EARLIER, INSIDE, RANGE};
use naga::{
    Arena, ArraySize, Block, Expression, Function, Handle, Module, Range, Statement, Type,
    TypeInner,
};

/// The first test that fails on a module, or zeros.
pub fn locate(module: &Module, positions: &Positions) -> Verdict {
    let search = Search { module, positions };
    search.module().err().unwrap_or_default()
}

type Tested = Result<(), Verdict>;

fn inside<T>(kind: u32, handle: Handle<T>, count: usize, position: usize) -> Tested {
    if handle.index() < count {
        return Ok(());
    }
    let fault = Fault {
        number: INSIDE,
        kind,
        first: handle.index(),
        second: 0,
    };
    Err(fault.at(position))
}

fn earlier<T>(kind: u32, subject: Handle<T>, named: Handle<T>, position: usize) -> Tested {
    if named.index() < subject.index() {
        return Ok(());
    }
    let fault = Fault {
        number: EARLIER,
        kind,
        first: subject.index(),
        second: named.index(),
    };
    Err(fault.at(position))
}

fn range_inside(range: &Range<Expression>, count: usize, position: usize) -> Tested {
    let ends = range.index_range();
    let passes = ends.start == ends.end || ends.start < ends.end && ends.end as usize <= count;
    if passes {
        return Ok(());
    }
    let fault = Fault {
        number: RANGE,
        kind: kind::EXPRESSION,
        first: ends.start as usize,
        second: ends.end as usize,
    };
    Err(fault.at(position))
}

struct Search<'a> {
    module: &'a Module,
    positions: &'a Positions,
}

impl Search<'_> {
    fn module(&self) -> Tested {
        let (module, positions) = (self.module, self.positions);
        for (number, ty) in module.types.iter() {
            self.type_handles(number, ty)?;
        }
        for (number, expression) in module.global_expressions.iter() {
            self.global_expression(number, expression)?;
        }
        for ((_, item), &at) in module.constants.iter().zip(&positions.constants) {
            self.type_inside(item.ty, at)?;
            self.global_inside(Some(item.init), at)?;
        }
        for ((_, item), &at) in module.overrides.iter().zip(&positions.overrides) {
            self.type_inside(item.ty, at)?;
            self.global_inside(item.init, at)?;
        }
        for ((_, item), &at) in module
            .global_variables
            .iter()
            .zip(&positions.global_variables)
        {
            self.type_inside(item.ty, at)?;
            self.global_inside(item.init, at)?;
        }
        self.entry_points()?;
        for ((number, function), body) in module.functions.iter().zip(&positions.functions) {
            self.body(Some(number), function, body)?;
        }
        let special = &module.special_types;
        let special_types = [
            special.ray_desc,
            special.ray_intersection,
            special.ray_vertex_return,
        ];
        for ty in special_types.into_iter().flatten() {
            self.type_inside(ty, positions.special_types)?;
        }
        for ((number, node), &at) in module
            .diagnostic_filters
            .iter()
            .zip(&positions.diagnostic_filters)
        {
            if let Some(parent) = node.parent {
                earlier(kind::FILTER_NODE, number, parent, at)?;
            }
        }
        if let Some(leaf) = module.diagnostic_filter_leaf {
            let count = module.diagnostic_filters.len();
            let at = positions.diagnostic_filter_leaf;
            inside(kind::FILTER_NODE, leaf, count, at)?;
        }
        Ok(())
    }

    fn type_inside(&self, ty: Handle<Type>, position: usize) -> Tested {
        inside(kind::TYPE, ty, self.module.types.len(), position)
    }

    fn global_inside(&self, expression: Option<Handle<Expression>>, position: usize) -> Tested {
        match expression {
            Some(expression) => {
                let count = self.module.global_expressions.len();
                inside(kind::EXPRESSION, expression, count, position)
            }
            None => Ok(()),
        }
    }

    fn type_handles(&self, number: Handle<Type>, ty: &Type) -> Tested {
        let at = self.positions.types[number.index()];
        match ty.inner {
            TypeInner::Pointer { base, .. } => earlier(kind::TYPE, number, base, at),
            TypeInner::Array { base, size, .. } | TypeInner::BindingArray { base, size } => {
                earlier(kind::TYPE, number, base, at)?;
                match size {
                    ArraySize::Pending(size) => self.pending(number, size, at),
                    ArraySize::Constant(_) | ArraySize::Dynamic => Ok(()),
                }
            }
            TypeInner::Struct { ref members, .. } => {
                for member in members {
                    earlier(kind::TYPE, number, member.ty, at)?;
                }
                Ok(())
            }
            _ => Ok(()),
        }
    }

    /// The tests of a size, with every global expression up to its init.
    fn pending(&self, number: Handle<Type>, size: Handle<naga::Override>, at: usize) -> Tested {
        let overrides = &self.module.overrides;
        inside(kind::OVERRIDE, size, overrides.len(), at)?;
        earlier(kind::TYPE, number, overrides[size].ty, at)?;
        let Some(init) = overrides[size].init else {
            return Ok(());
        };
        self.global_inside(Some(init), at)?;
        for (global, expression) in self.module.global_expressions.iter() {
            if global > init {
                break;
            }
            self.global_expression(global, expression)?;
            if let Expression::ZeroValue(ty) | Expression::Compose { ty, .. } = *expression {
                earlier(kind::TYPE, number, ty, at)?;
            }
        }
        Ok(())
    }

    fn global_expression(&self, number: Handle<Expression>, expression: &Expression) -> Tested {
        let at = self.positions.global_expressions[number.index()];
        match *expression {
            Expression::Constant(constant) => {
                let constants = &self.module.constants;
                inside(kind::CONSTANT, constant, constants.len(), at)?;
                earlier(kind::EXPRESSION, number, constants[constant].init, at)
            }
            Expression::Override(size) => {
                let overrides = &self.module.overrides;
                inside(kind::OVERRIDE, size, overrides.len(), at)?;
                match overrides[size].init {
                    Some(init) => earlier(kind::EXPRESSION, number, init, at),
                    None => Ok(()),
                }
            }
            Expression::Compose { ref components, .. } => {
                for &component in components {
                    earlier(kind::EXPRESSION, number, component, at)?;
                }
                Ok(())
            }
            _ => Ok(()),
        }
    }

    fn entry_points(&self) -> Tested {
        let globals = self.module.global_variables.len();
        for (entry_point, body) in self
            .module
            .entry_points
            .iter()
            .zip(&self.positions.entry_points)
        {
            self.body(None, &entry_point.function, body)?;
            let at = body.opener;
            for size in entry_point
                .workgroup_size_overrides
                .into_iter()
                .flatten()
                .flatten()
            {
                self.global_inside(Some(size), at)?;
            }
            if let Some(payload) = entry_point.task_payload {
                inside(kind::GLOBAL_VARIABLE, payload, globals, at)?;
            }
            if let Some(mesh) = &entry_point.mesh_info {
                inside(kind::GLOBAL_VARIABLE, mesh.output_variable, globals, at)?;
                self.type_inside(mesh.vertex_output_type, at)?;
                self.type_inside(mesh.primitive_output_type, at)?;
                self.global_inside(mesh.max_vertices_override, at)?;
                self.global_inside(mesh.max_primitives_override, at)?;
            }
        }
        Ok(())
    }

    fn body(
        &self,
        number: Option<Handle<Function>>,
        function: &Function,
        positions: &BodyPositions,
    ) -> Tested {
        for (argument, &at) in function.arguments.iter().zip(&positions.arguments) {
            self.type_inside(argument.ty, at)?;
        }
        if let Some(result) = &function.result {
            self.type_inside(result.ty, positions.result)?;
        }
        let count = function.expressions.len();
        for ((_, variable), &at) in function
            .local_variables
            .iter()
            .zip(&positions.local_variables)
        {
            self.type_inside(variable.ty, at)?;
            if let Some(init) = variable.init {
                inside(kind::EXPRESSION, init, count, at)?;
            }
        }
        for (&named, &at) in function
            .named_expressions
            .keys()
            .zip(&positions.named_expressions)
        {
            inside(kind::EXPRESSION, named, count, at)?;
        }
        for (expression, _) in function.expressions.iter() {
            self.expression(number, function, expression, positions)?;
        }
        let mut statements = Statements {
            count,
            functions: &self.module.functions,
            positions: positions.statements.iter(),
        };
        statements.block(&function.body)?;
        if let Some(leaf) = function.diagnostic_filter_leaf {
            let nodes = self.module.diagnostic_filters.len();
            inside(kind::FILTER_NODE, leaf, nodes, positions.opener)?;
        }
        Ok(())
    }

    fn expression(
        &self,
        current: Option<Handle<Function>>,
        function: &Function,
        number: Handle<Expression>,
        positions: &BodyPositions,
    ) -> Tested {
        let module = self.module;
        let at = positions.expressions[number.index()];
        let expression = &function.expressions[number];
        match *expression {
            Expression::Constant(constant) => {
                inside(kind::CONSTANT, constant, module.constants.len(), at)?;
            }
            Expression::Override(size) => {
                inside(kind::OVERRIDE, size, module.overrides.len(), at)?;
            }
            Expression::ZeroValue(ty) | Expression::Compose { ty, .. } => {
                self.type_inside(ty, at)?;
            }
            Expression::GlobalVariable(variable) => {
                let count = module.global_variables.len();
                inside(kind::GLOBAL_VARIABLE, variable, count, at)?;
            }
            Expression::LocalVariable(variable) => {
                let count = function.local_variables.len();
                inside(kind::LOCAL_VARIABLE, variable, count, at)?;
            }
            Expression::CallResult(called) => {
                inside(kind::FUNCTION, called, module.functions.len(), at)?;
                if let Some(current) = current {
                    earlier(kind::FUNCTION, current, called, positions.opener)?;
                }
            }
            _ => {}
        }
        for operand in operands(expression) {
            earlier(kind::EXPRESSION, number, operand, at)?;
        }
        Ok(())
    }
}

/// The statements of a body. Their records are met in order, as blocks are nested.
struct Statements<'a> {
    count: usize,
    functions: &'a Arena<Function>,
    positions: std::slice::Iter<'a, usize>,
}

impl Statements<'_> {
    /// The position of the next record.
    fn next(&mut self) -> usize {
        *self.positions.next().expect("each statement has a record")
    }

    fn block(&mut self, block: &Block) -> Tested {
        for statement in block.iter() {
            self.statement(statement)?;
        }
        Ok(())
    }

    /// A block and the record that closes it.
    fn closed(&mut self, block: &Block) -> Tested {
        self.block(block)?;
        self.next();
        Ok(())
    }

    fn statement(&mut self, statement: &Statement) -> Tested {
        let at = self.next();
        match statement {
            Statement::Emit(range) => range_inside(range, self.count, at)?,
            Statement::Call { function, .. } => {
                inside(kind::FUNCTION, *function, self.functions.len(), at)?;
            }
            _ => {}
        }
        for expression in tested_expressions(statement) {
            inside(kind::EXPRESSION, expression, self.count, at)?;
        }
        match statement {
            Statement::Block(block) => self.closed(block),
            Statement::If { accept, reject, .. } => {
                self.closed(accept)?;
                self.closed(reject)
            }
            Statement::Switch { cases, .. } => {
                for case in cases {
                    self.next();
                    self.closed(&case.body)?;
                }
                self.next();
                Ok(())
            }
            Statement::Loop {
                body,
                continuing,
                break_if,
            } => {
                self.closed(body)?;
                self.block(continuing)?;
                let at = self.next();
                match break_if {
                    Some(expression) => inside(kind::EXPRESSION, *expression, self.count, at),
                    None => Ok(()),
                }
            }
            _ => Ok(()),
        }
    }
}
