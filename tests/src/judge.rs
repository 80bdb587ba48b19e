//! What is well formed: refusals 6, 7 and 8, in one pass in file order.

use crate::answer::Refusal;
use crate::numbers::Number;
use crate::tree::*;
use crate::value::fits;

type Judged<T> = Result<T, Refusal>;

/// The first fault of form, if there is one.
pub fn judge(program: &Program) -> Judged<()> {
    for global in &program.globals {
        judge_global(program, global)?;
    }
    for (number, callable) in program.callables.iter().enumerate() {
        judge_callable(program, number, callable)?;
    }
    for table in &program.tables {
        judge_table(program, table)?;
    }
    for (number, state) in program.states.iter().enumerate() {
        judge_state(program, number, state)?;
    }
    Scope::outside(program).statement(&program.apply_body)
}

/// The type of a key of a well formed table.
pub fn key_type(program: &Program, key: &Key) -> Judged<Type> {
    Scope::outside(program).expression(&key.expression)
}

fn require(holds: bool, number: u8, place: usize) -> Judged<()> {
    if holds {
        Ok(())
    } else {
        Err(Refusal::at(number, place))
    }
}

fn name<T>(members: &[T], number: Number) -> Judged<&T> {
    named(members, number.value).ok_or(Refusal::at(6, number.place))
}

fn judge_global(program: &Program, global: &Global) -> Judged<()> {
    match global.kind {
        GlobalKind::Plain(_) => Ok(()),
        GlobalKind::Header(header) => require(header < program.headers.len(), 6, global.place),
    }
}

fn judge_callable(program: &Program, number: usize, callable: &Callable) -> Judged<()> {
    Scope::inside(program, number, callable).statement(&callable.body)?;
    let returns = callable.kind == CallableKind::Action || returns_a_value(&callable.body);
    require(returns, 8, callable.place)
}

/// Whether each path through the statement returns a value.
fn returns_a_value(statement: &Statement) -> bool {
    match &statement.form {
        StatementForm::ReturnValue(_) => true,
        StatementForm::If { then_branch, else_branch, .. } => {
            returns_a_value(then_branch) && returns_a_value(else_branch)
        }
        StatementForm::Block(members) => members.iter().any(returns_a_value),
        _ => false,
    }
}

fn judge_table(program: &Program, table: &Table) -> Judged<()> {
    for &action in &table.actions {
        name(&program.callables, action)?;
    }
    let default = name(&program.callables, *name(&table.actions, table.default)?)?;
    let scope = Scope::outside(program);
    let key_types = table.keys.iter().map(|key| scope.expression(&key.expression)).collect::<Judged<Vec<_>>>()?;
    for (key, key_type) in table.keys.iter().zip(key_types) {
        require(key_type != Type::Bool, 7, key.expression.place)?;
    }
    require(table.default_arguments.len() == default.parameters.len(), 7, table.default_count.place)?;
    for (argument, parameter) in table.default_arguments.iter().zip(&default.parameters) {
        require(fits(argument.value, parameter.kind), 7, argument.place)?;
    }
    if let Some(second) = table.keys.iter().filter(|key| key.kind == KeyKind::Lpm).nth(1) {
        return Err(Refusal::at(8, second.place));
    }
    for &action in &table.actions {
        require(is_for_tables(name(&program.callables, action)?), 8, action.place)?;
    }
    Ok(())
}

/// Whether a table may list the callable.
pub fn is_for_tables(callable: &Callable) -> bool {
    let undirected = |parameter: &Parameter| parameter.direction == Direction::None;
    callable.kind == CallableKind::Action && callable.parameters.iter().all(undirected)
}

fn judge_state(program: &Program, number: usize, state: &State) -> Judged<()> {
    let scope = Scope::in_state(program);
    scope.statement(&state.statement)?;
    match &state.transition {
        Transition::None | Transition::Accept | Transition::Reject(_) => Ok(()),
        Transition::Next(next) => judge_next(program, number, *next),
        Transition::Select { expression, pairs } => {
            pairs.iter().try_for_each(|pair| judge_next(program, number, pair.state))?;
            let width = scope.bits(expression, expression.place)?;
            let judge_value = |value: Number| require(fits(value.value, Type::Bits(width)), 7, value.place);
            pairs.iter().try_for_each(|pair| judge_value(pair.value))
        }
    }
}

/// A state leads to later ones only.
fn judge_next(program: &Program, number: usize, next: Number) -> Judged<()> {
    name(&program.states, next)?;
    require(next.value > number as u64, 6, next.place)
}

/// What the construct at hand may name, and where it stands.
struct Scope<'a> {
    program: &'a Program,
    /// The callables that may be reached by number.
    reach: &'a [Callable],
    holder: Holder<'a>,
    parameters: &'a [Parameter],
    locals: &'a [Type],
}

/// What a construct stands in.
enum Holder<'a> {
    Callable(&'a Callable),
    /// A state's statement, or its select.
    State,
    /// A key or the apply body.
    Neither,
}

impl<'a> Scope<'a> {
    fn outside(program: &'a Program) -> Self {
        Scope { program, reach: &program.callables, holder: Holder::Neither, parameters: &[], locals: &[] }
    }

    fn in_state(program: &'a Program) -> Self {
        Scope { holder: Holder::State, ..Scope::outside(program) }
    }

    fn inside(program: &'a Program, number: usize, callable: &'a Callable) -> Self {
        Scope {
            program,
            reach: &program.callables[..number],
            holder: Holder::Callable(callable),
            parameters: &callable.parameters,
            locals: &callable.locals,
        }
    }

    fn in_function(&self) -> bool {
        self.returns().is_some()
    }

    fn returns(&self) -> Option<Type> {
        match self.holder {
            Holder::Callable(Callable { kind: CallableKind::Function(kind), .. }) => Some(*kind),
            _ => None,
        }
    }

    fn is_state(&self) -> bool {
        matches!(self.holder, Holder::State)
    }

    fn only_in_state(&self, place: usize) -> Judged<()> {
        require(self.is_state(), 8, place)
    }

    fn not_in_function(&self, place: usize) -> Judged<()> {
        require(!self.in_function(), 8, place)
    }

    fn expression(&self, expression: &Expression) -> Judged<Type> {
        use ExpressionForm::*;
        let place = expression.place;
        match &expression.form {
            Bool(value) => require(*value <= 1, 7, place).map(|()| Type::Bool),
            Bits { width, value } => {
                let kind = Type::Bits(*width);
                require(fits(*value, kind), 7, place).map(|()| kind)
            }
            Local(number) => name(self.locals, *number).copied(),
            Parameter(number) => Ok(name(self.parameters, *number)?.kind),
            Global(global) => self.variable(*global, place),
            Field { global, field } => self.field(*global, *field, place),
            Valid(global) => self.header(*global, place).map(|()| Type::Bool),
            Not(operand) => {
                require(self.expression(operand)? == Type::Bool, 7, place)?;
                Ok(Type::Bool)
            }
            Complement(operand) => Ok(Type::Bits(self.bits(operand, place)?)),
            Binary { operator, left, right } => {
                let kinds = (self.expression(left)?, self.expression(right)?);
                binary_type(*operator, kinds.0, kinds.1).ok_or(Refusal::at(7, place))
            }
            Cast { width, operand } => self.bits(operand, place).map(|_| Type::Bits(*width)),
            Slice { high, low, operand } => {
                let width = self.bits(operand, place)?;
                require(low <= high && *high < width, 7, place)?;
                Ok(Type::Bits(high - low + 1))
            }
            Concatenation(left, right) => self.concatenation(left, right, place),
            Call(call) => self.function_call(call, place),
        }
    }

    /// The width of an operand that has to be bits; the fault is its holder's.
    fn bits(&self, operand: &Expression, place: usize) -> Judged<u32> {
        match self.expression(operand)? {
            Type::Bits(width) => Ok(width),
            Type::Bool => Err(Refusal::at(7, place)),
        }
    }

    fn concatenation(&self, left: &Expression, right: &Expression, place: usize) -> Judged<Type> {
        match (self.expression(left)?, self.expression(right)?) {
            (Type::Bits(high), Type::Bits(low)) if high + low <= 64 => Ok(Type::Bits(high + low)),
            _ => Err(Refusal::at(7, place)),
        }
    }

    fn variable(&self, global: Number, place: usize) -> Judged<Type> {
        match name(&self.program.globals, global)?.kind {
            GlobalKind::Header(_) => Err(Refusal::at(7, place)),
            GlobalKind::Plain(kind) => self.not_in_function(place).map(|()| kind),
        }
    }

    fn field(&self, global: Number, field: Number, place: usize) -> Judged<Type> {
        match name(&self.program.globals, global)?.kind {
            GlobalKind::Plain(_) => Err(Refusal::at(7, place)),
            GlobalKind::Header(header) => {
                let width = *name(&self.program.headers[header], field)?;
                self.not_in_function(place).map(|()| Type::Bits(width))
            }
        }
    }

    fn header(&self, global: Number, place: usize) -> Judged<()> {
        self.widths(global, place)?;
        self.not_in_function(place)
    }

    /// The field widths of a global that has to be a header.
    fn widths(&self, global: Number, place: usize) -> Judged<&[u32]> {
        match name(&self.program.globals, global)?.kind {
            GlobalKind::Plain(_) => Err(Refusal::at(7, place)),
            GlobalKind::Header(header) => Ok(&self.program.headers[header]),
        }
    }

    fn extract(&self, global: Number, place: usize) -> Judged<()> {
        let widths = self.widths(global, place)?;
        require(whole_bytes(widths).is_some(), 7, place)?;
        self.only_in_state(place)
    }

    fn function_call(&self, call: &Call, place: usize) -> Judged<Type> {
        let (callee, misplaced) = self.call(call, place)?;
        match callee.kind {
            CallableKind::Function(kind) => require(!misplaced, 8, place).map(|()| kind),
            CallableKind::Action => Err(Refusal::at(8, place)),
        }
    }

    fn call_statement(&self, call: &Call, place: usize) -> Judged<()> {
        let (callee, misplaced) = self.call(call, place)?;
        let action_in_function = self.in_function() && callee.kind == CallableKind::Action;
        require(!action_in_function && !misplaced, 8, place)
    }

    /// The callee of a call without 6 and 7, and whether the call may not stand here whatever its callee's kind: it is in
    /// a state, or it writes to an argument that is no writable place.
    fn call(&self, call: &Call, place: usize) -> Judged<(&Callable, bool)> {
        let callee = name(self.reach, call.callable)?;
        let kinds = call.arguments.iter().map(|argument| self.expression(argument)).collect::<Judged<Vec<_>>>()?;
        let wanted: Vec<Type> = callee.parameters.iter().map(|parameter| parameter.kind).collect();
        require(kinds == wanted, 7, place)?;
        let mut pairs = callee.parameters.iter().zip(&call.arguments);
        let unwritable = pairs.any(|(parameter, argument)| parameter.direction.writes() && !self.writable(argument));
        Ok((callee, unwritable || self.is_state()))
    }

    /// Whether an expression that has no fault of its own is a writable place.
    fn writable(&self, expression: &Expression) -> bool {
        use ExpressionForm::*;
        match &expression.form {
            Local(_) | Global(_) | Field { .. } => true,
            Parameter(number) => {
                named(self.parameters, number.value).is_some_and(|parameter| parameter.direction.writes())
            }
            _ => false,
        }
    }

    fn statement(&self, statement: &Statement) -> Judged<()> {
        use StatementForm::*;
        let place = statement.place;
        match &statement.form {
            Empty => Ok(()),
            Assign { target, value } => {
                let kinds = (self.expression(target)?, self.expression(value)?);
                require(kinds.0 == kinds.1, 7, place)?;
                require(self.writable(target), 8, place)
            }
            If { condition, then_branch, else_branch } => {
                let kind = self.expression(condition)?;
                self.statement(then_branch)?;
                self.statement(else_branch)?;
                require(kind == Type::Bool, 7, place)
            }
            Block(members) => members.iter().try_for_each(|member| self.statement(member)),
            Call(call) => self.call_statement(call, place),
            Apply(table) => {
                name(&self.program.tables, *table)?;
                require(matches!(self.holder, Holder::Neither), 8, place)
            }
            ReturnValue(value) => {
                let kind = self.expression(value)?;
                let wanted = self.returns().ok_or(Refusal::at(8, place))?;
                require(kind == wanted, 7, place)
            }
            Return | Exit => require(!self.in_function() && !self.is_state(), 8, place),
            SetValid(global) | SetInvalid(global) => self.header(*global, place),
            Extract(global) => self.extract(*global, place),
            Verify { condition, .. } => {
                require(self.expression(condition)? == Type::Bool, 7, place)?;
                self.only_in_state(place)
            }
        }
    }
}

/// The type of a binary operation, where its operands have types it takes.
fn binary_type(operator: Operator, left: Type, right: Type) -> Option<Type> {
    use Operator::*;
    let bools = left == Type::Bool && right == Type::Bool;
    let bits = left != Type::Bool && right != Type::Bool;
    match operator {
        Plus | Minus | Times | And | Or | Xor => (bits && left == right).then_some(left),
        ShiftLeft | ShiftRight => bits.then_some(left),
        Equal | Unequal => (left == right).then_some(Type::Bool),
        Less | LessOrEqual => (bits && left == right).then_some(Type::Bool),
        Both | Either => bools.then_some(Type::Bool),
    }
}
