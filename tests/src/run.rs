//! How it runs. Every construct asks what it needs where it is reached, so one runner serves judged and unjudged files:
//! what is not as the rules of form ask ends the run stuck.

use crate::answer::Signal;
use crate::inputs::{store_numbers, Entry, Inputs, Variable};
use crate::judge::is_for_tables;
use crate::numbers::Number;
use crate::tree::*;
use crate::value::{largest, Value};
use std::cmp::Reverse;

pub const WORKING_SLOTS: usize = 8192;
const PATIENCE: u64 = 2_000_000;

/// The errors of rejects that state none.
const PACKET_TOO_SHORT: u64 = 1;
const NO_MATCH: u64 = 2;
const NO_TRANSITION: u64 = 3;

/// How many working slots there are, and after how many steps the interpreter gives up.
#[derive(Clone, Copy)]
pub struct Limits {
    pub slots: usize,
    pub patience: u64,
}

impl Default for Limits {
    fn default() -> Limits {
        Limits { slots: WORKING_SLOTS, patience: PATIENCE }
    }
}

/// How a run ended.
pub enum End {
    Finished { signal: Signal, steps: u64, store: Vec<u64> },
    Full,
    Stuck,
    TooLong,
}

/// Run the parser over the packet and the store, then the apply body over the store.
pub fn run(program: &Program, inputs: Inputs, limits: Limits) -> End {
    let taken = store_numbers(&inputs.store).len();
    let Inputs { entries, store, packet } = inputs;
    let mut runner = Runner { program, entries: &entries, store, unread: &packet, steps: 0, taken, limits };
    let signal = match runner.parse_and_apply() {
        Ok(()) => Signal::Done,
        Err(Halt::Exit) => Signal::Exit,
        Err(Halt::Reject(error)) => Signal::Reject(error),
        Err(Halt::Full) => return End::Full,
        Err(Halt::Stuck) => return End::Stuck,
        Err(Halt::TooLong) => return End::TooLong,
    };
    End::Finished { signal, steps: runner.steps, store: store_numbers(&runner.store) }
}

/// What ends the whole run at once.
enum Halt {
    Exit,
    /// With its error.
    Reject(u64),
    Full,
    Stuck,
    TooLong,
}

type Ran<T> = Result<T, Halt>;

/// What follows a statement.
enum Flow {
    On,
    Return,
    ReturnValue(Value),
}

/// A body at work; states, the apply body and the keys have no callable around them, no parameter and no local.
struct Frame<'a> {
    holder: Option<Holder<'a>>,
    in_state: bool,
    parameters: Vec<Value>,
    locals: Vec<Value>,
}

#[derive(Clone, Copy)]
struct Holder<'a> {
    number: usize,
    callable: &'a Callable,
}

impl Frame<'_> {
    /// A frame with no callable around it.
    fn outside(in_state: bool) -> Self {
        Frame { holder: None, in_state, parameters: Vec::new(), locals: Vec::new() }
    }

    /// What the body returns, in a function.
    fn returns(&self) -> Option<Type> {
        match self.holder?.callable.kind {
            CallableKind::Action => None,
            CallableKind::Function(kind) => Some(kind),
        }
    }

    fn in_function(&self) -> bool {
        self.returns().is_some()
    }

    fn may_end(&self) -> bool {
        !self.in_function() && !self.in_state
    }

    fn is_writable(&self, slot: Slot) -> bool {
        match (slot, self.holder) {
            (Slot::Parameter(index), Some(holder)) => holder.callable.parameters[index].direction.writes(),
            _ => true,
        }
    }
}

/// A place that holds a value.
#[derive(Clone, Copy)]
enum Slot {
    Local(usize),
    Parameter(usize),
    Variable(usize),
    Field { global: usize, field: usize },
}

struct Runner<'a> {
    program: &'a Program,
    entries: &'a [Entry],
    store: Vec<Variable>,
    /// The packet's bytes that no extract has taken.
    unread: &'a [u8],
    steps: u64,
    /// The working slots in use: the store's and those of the calls at work.
    taken: usize,
    limits: Limits,
}

fn covered<T>(answer: Option<T>) -> Ran<T> {
    answer.ok_or(Halt::Stuck)
}

fn require(holds: bool) -> Ran<()> {
    covered(holds.then_some(()))
}

impl<'a> Runner<'a> {
    fn step(&mut self) -> Ran<()> {
        self.steps += 1;
        if self.steps > self.limits.patience {
            Err(Halt::TooLong)
        } else {
            Ok(())
        }
    }

    fn parse_and_apply(&mut self) -> Ran<()> {
        let program = self.program;
        let mut state = (!program.states.is_empty()).then_some(0);
        while let Some(number) = state {
            state = self.state(number)?;
        }
        self.execute(&mut Frame::outside(false), &program.apply_body).map(|_| ())
    }

    /// A state of the parser. It answers the next one; none if it accepts.
    fn state(&mut self, number: usize) -> Ran<Option<usize>> {
        let State { statement, transition } = &self.program.states[number];
        let mut frame = Frame::outside(true);
        self.step()?;
        self.execute(&mut frame, statement)?;
        let next = match transition {
            Transition::None => return Err(Halt::Reject(NO_TRANSITION)),
            Transition::Accept => return Ok(None),
            Transition::Reject(error) => return Err(Halt::Reject(*error)),
            Transition::Next(next) => *next,
            Transition::Select { expression, pairs } => self.select(&mut frame, expression, pairs)?,
        };
        let later = covered(index(&self.program.states, next).filter(|&next| next > number))?;
        Ok(Some(later))
    }

    /// The state beside the first value that is equal; all values have to fit.
    fn select(&mut self, frame: &mut Frame<'a>, expression: &'a Expression, pairs: &[Pair]) -> Ran<Number> {
        let (width, key) = covered(self.evaluate(frame, expression)?.bits())?;
        require(pairs.iter().all(|pair| pair.value.value <= largest(width)))?;
        let equal = pairs.iter().find(|pair| pair.value.value == key);
        equal.map(|pair| pair.state).ok_or(Halt::Reject(NO_MATCH))
    }

    /// Fill a header from the next unread bits; a packet that is too short changes none.
    fn extract(&mut self, frame: &Frame<'a>, global: Number) -> Ran<()> {
        require(frame.in_state)?;
        let index = self.header(frame, global)?;
        let Variable::Header { valid, fields } = &mut self.store[index] else { return Err(Halt::Stuck) };
        let widths: Vec<u32> = fields.iter().filter_map(|field| field.bits()).map(|(width, _)| width).collect();
        let length = covered(whole_bytes(&widths))?;
        let (taken, unread) = self.unread.split_at_checked(length).ok_or(Halt::Reject(PACKET_TOO_SHORT))?;
        self.unread = unread;
        *valid = true;
        *fields = fields_of(taken, &widths);
        Ok(())
    }

    fn verify(&mut self, frame: &mut Frame<'a>, condition: &'a Expression, error: u64) -> Ran<()> {
        require(frame.in_state)?;
        if self.truth(frame, condition)? {
            Ok(())
        } else {
            Err(Halt::Reject(error))
        }
    }

    fn evaluate(&mut self, frame: &mut Frame<'a>, expression: &'a Expression) -> Ran<Value> {
        use ExpressionForm::*;
        self.step()?;
        match &expression.form {
            Bool(value) => covered(Value::of(*value, Type::Bool)),
            Bits { width, value } => covered(Value::of(*value, Type::Bits(*width))),
            Local(_) | Parameter(_) | Global(_) | Field { .. } => {
                let slot = covered(self.slot(frame, expression))?;
                Ok(self.load(frame, slot))
            }
            Valid(global) => {
                let index = self.header(frame, *global)?;
                Ok(Value::Bool(matches!(self.store[index], Variable::Header { valid: true, .. })))
            }
            Not(operand) => Ok(Value::Bool(!self.truth(frame, operand)?)),
            Complement(operand) => covered(self.evaluate(frame, operand)?.complement()),
            Binary { operator, left, right } => self.binary(frame, *operator, left, right),
            Cast { width, operand } => covered(self.evaluate(frame, operand)?.cast(*width)),
            Slice { high, low, operand } => covered(self.evaluate(frame, operand)?.slice(*high, *low)),
            Concatenation(left, right) => {
                let high = self.evaluate(frame, left)?;
                let low = self.evaluate(frame, right)?;
                covered(high.concatenate(low))
            }
            Call(call) => covered(self.call(frame, call, true)?),
        }
    }

    fn truth(&mut self, frame: &mut Frame<'a>, expression: &'a Expression) -> Ran<bool> {
        covered(self.evaluate(frame, expression)?.truth())
    }

    fn binary(
        &mut self,
        frame: &mut Frame<'a>,
        operator: Operator,
        left: &'a Expression,
        right: &'a Expression,
    ) -> Ran<Value> {
        match operator {
            Operator::Both => Ok(Value::Bool(self.truth(frame, left)? && self.truth(frame, right)?)),
            Operator::Either => Ok(Value::Bool(self.truth(frame, left)? || self.truth(frame, right)?)),
            _ => {
                let first = self.evaluate(frame, left)?;
                let second = self.evaluate(frame, right)?;
                covered(first.combine(operator, second))
            }
        }
    }

    /// The place that an expression names, if it names one here.
    fn slot(&self, frame: &Frame<'a>, expression: &Expression) -> Option<Slot> {
        use ExpressionForm::*;
        match &expression.form {
            Local(number) => index(&frame.locals, *number).map(Slot::Local),
            Parameter(number) => index(&frame.parameters, *number).map(Slot::Parameter),
            Global(number) if !frame.in_function() => {
                let global = index(&self.store, *number)?;
                matches!(self.store[global], Variable::Plain(_)).then_some(Slot::Variable(global))
            }
            Field { global, field } if !frame.in_function() => {
                let global = index(&self.store, *global)?;
                let Variable::Header { fields, .. } = &self.store[global] else { return None };
                index(fields, *field).map(|field| Slot::Field { global, field })
            }
            _ => None,
        }
    }

    fn writable(&self, frame: &Frame<'a>, expression: &Expression) -> Ran<Slot> {
        covered(self.slot(frame, expression).filter(|&slot| frame.is_writable(slot)))
    }

    fn load(&self, frame: &Frame<'a>, slot: Slot) -> Value {
        match slot {
            Slot::Local(index) => frame.locals[index],
            Slot::Parameter(index) => frame.parameters[index],
            Slot::Variable(global) => match &self.store[global] {
                Variable::Plain(value) => *value,
                Variable::Header { .. } => unreachable!("the slot names a plain variable"),
            },
            Slot::Field { global, field } => match &self.store[global] {
                Variable::Header { fields, .. } => fields[field],
                Variable::Plain(_) => unreachable!("the slot names a header's field"),
            },
        }
    }

    /// Write a value of the place's own type; a field of an invalid header stays as it is.
    fn save(&mut self, frame: &mut Frame<'a>, slot: Slot, value: Value) {
        match slot {
            Slot::Local(index) => frame.locals[index] = value,
            Slot::Parameter(index) => frame.parameters[index] = value,
            Slot::Variable(global) => self.store[global] = Variable::Plain(value),
            Slot::Field { global, field } => {
                if let Variable::Header { valid: true, fields } = &mut self.store[global] {
                    fields[field] = value;
                }
            }
        }
    }

    /// The index of a header that may be named here.
    fn header(&self, frame: &Frame<'a>, global: Number) -> Ran<usize> {
        require(!frame.in_function())?;
        let index = covered(index(&self.store, global))?;
        require(matches!(self.store[index], Variable::Header { .. }))?;
        Ok(index)
    }

    fn mark_header(&mut self, frame: &Frame<'a>, global: Number, mark: bool) -> Ran<()> {
        let index = self.header(frame, global)?;
        if let Variable::Header { valid, fields } = &mut self.store[index] {
            if !(mark && *valid) {
                fields.iter_mut().for_each(|field| *field = Value::zero(field.kind()));
            }
            *valid = mark;
        }
        Ok(())
    }

    /// The callable that a call in this frame may reach by its number.
    fn callee(&self, frame: &Frame<'a>, number: Number) -> Ran<Holder<'a>> {
        let callables = &self.program.callables;
        let reach = frame.holder.map_or(callables.len(), |holder| holder.number);
        let number = covered(index(&callables[..reach], number))?;
        Ok(Holder { number, callable: &callables[number] })
    }

    /// A call: arguments, body, writing back. It answers the value that a function returned.
    fn call(&mut self, frame: &mut Frame<'a>, call: &'a Call, for_value: bool) -> Ran<Option<Value>> {
        require(!frame.in_state)?;
        let callee = self.callee(frame, call.callable)?;
        let function_wanted = for_value || frame.in_function();
        require(!function_wanted || callee.callable.kind != CallableKind::Action)?;
        require(call.arguments.len() == callee.callable.parameters.len())?;
        let mut values = Vec::new();
        let mut written_back = Vec::new();
        for (parameter, argument) in callee.callable.parameters.iter().zip(&call.arguments) {
            if parameter.direction.writes() {
                written_back.push((values.len(), self.writable(frame, argument)?));
            }
            values.push(self.argument(frame, *parameter, argument)?);
        }
        let (returned, parameters) = self.body(callee, values)?;
        for (parameter, slot) in written_back {
            self.save(frame, slot, parameters[parameter]);
        }
        Ok(returned)
    }

    /// What a parameter starts with.
    fn argument(&mut self, frame: &mut Frame<'a>, parameter: Parameter, argument: &'a Expression) -> Ran<Value> {
        let value = self.evaluate(frame, argument)?;
        require(value.kind() == parameter.kind)?;
        Ok(match parameter.direction {
            Direction::Out => Value::zero(parameter.kind),
            _ => value,
        })
    }

    /// Run a callable's body in slots of its own: what it returned, and its parameters as it left them.
    fn body(&mut self, callee: Holder<'a>, parameters: Vec<Value>) -> Ran<(Option<Value>, Vec<Value>)> {
        let locals: Vec<Value> = callee.callable.locals.iter().map(|&kind| Value::zero(kind)).collect();
        let slots = parameters.len() + locals.len();
        if self.taken + slots > self.limits.slots {
            return Err(Halt::Full);
        }
        self.taken += slots;
        let mut frame = Frame { holder: Some(callee), in_state: false, parameters, locals };
        let flow = self.execute(&mut frame, &callee.callable.body)?;
        self.taken -= slots;
        let returned = match flow {
            Flow::ReturnValue(value) => Some(value),
            Flow::On | Flow::Return => None,
        };
        require(returned.is_some() == frame.in_function())?;
        Ok((returned, frame.parameters))
    }

    fn execute(&mut self, frame: &mut Frame<'a>, statement: &'a Statement) -> Ran<Flow> {
        use StatementForm::*;
        self.step()?;
        match &statement.form {
            Empty => {}
            Assign { target, value } => self.assign(frame, target, value)?,
            If { condition, then_branch, else_branch } => {
                let branch = if self.truth(frame, condition)? { then_branch } else { else_branch };
                return self.execute(frame, branch);
            }
            Block(members) => return self.block(frame, members),
            Call(call) => self.call(frame, call, false).map(|_| ())?,
            Apply(table) => self.apply(frame, *table)?,
            ReturnValue(value) => {
                let value = self.evaluate(frame, value)?;
                require(frame.returns() == Some(value.kind()))?;
                return Ok(Flow::ReturnValue(value));
            }
            Return => {
                require(frame.may_end())?;
                return Ok(Flow::Return);
            }
            Exit => {
                require(frame.may_end())?;
                return Err(Halt::Exit);
            }
            SetValid(global) => self.mark_header(frame, *global, true)?,
            SetInvalid(global) => self.mark_header(frame, *global, false)?,
            Extract(global) => self.extract(frame, *global)?,
            Verify { condition, error } => self.verify(frame, condition, *error)?,
        }
        Ok(Flow::On)
    }

    fn block(&mut self, frame: &mut Frame<'a>, members: &'a [Statement]) -> Ran<Flow> {
        for member in members {
            match self.execute(frame, member)? {
                Flow::On => {}
                ended => return Ok(ended),
            }
        }
        Ok(Flow::On)
    }

    fn assign(&mut self, frame: &mut Frame<'a>, target: &'a Expression, value: &'a Expression) -> Ran<()> {
        let slot = self.writable(frame, target)?;
        let value = self.evaluate(frame, value)?;
        require(self.load(frame, slot).kind() == value.kind())?;
        self.save(frame, slot, value);
        Ok(())
    }

    fn apply(&mut self, frame: &mut Frame<'a>, table: Number) -> Ran<()> {
        require(frame.holder.is_none() && !frame.in_state)?;
        let number = covered(index(&self.program.tables, table))?;
        let table = &self.program.tables[number];
        let mut keys = Vec::new();
        for key in &table.keys {
            keys.push(covered(self.evaluate(frame, &key.expression)?.bits())?);
        }
        require(count(table, KeyKind::Lpm) <= 1)?;
        let entries: Vec<&Entry> = self.entries.iter().filter(|entry| entry.table == number).collect();
        require(entries.iter().all(|entry| self.entry_fits(table, entry, &keys)))?;
        let (position, arguments) = match lookup(table, &entries, &keys) {
            Some(entry) => (entry.position as u64, entry.arguments.clone()),
            None => (table.default.value, table.default_arguments.iter().map(|argument| argument.value).collect()),
        };
        let action = covered(self.listed(table, position))?;
        require(is_for_tables(action.callable))?;
        let values = covered(values(action.callable, &arguments))?;
        self.body(action, values).map(|_| ())
    }

    fn entry_fits(&self, table: &Table, entry: &Entry, keys: &[(u32, u64)]) -> bool {
        let patterns_fit = entry.patterns.iter().zip(keys).all(|(pattern, key)| pattern.fits(key.0));
        let action = self.listed(table, entry.position as u64);
        patterns_fit && action.is_some_and(|action| values(action.callable, &entry.arguments).is_some())
    }

    /// The callable at a position of the table's list.
    fn listed(&self, table: &Table, position: u64) -> Option<Holder<'a>> {
        let number = index(&self.program.callables, *named(&table.actions, position)?)?;
        Some(Holder { number, callable: &self.program.callables[number] })
    }
}

fn index<T>(members: &[T], number: Number) -> Option<usize> {
    named(members, number.value).map(|_| number.value as usize)
}

/// Fields of these widths out of bytes, the highest bit first.
fn fields_of(bytes: &[u8], widths: &[u32]) -> Vec<Value> {
    let mut bits = bytes.iter().flat_map(|byte| (0..8).rev().map(move |bit| u64::from(byte >> bit & 1)));
    let mut field = |&width: &u32| {
        let value = bits.by_ref().take(width as usize).fold(0, |value, bit| value << 1 | bit);
        Value::Bits { width, value }
    };
    widths.iter().map(&mut field).collect()
}

fn count(table: &Table, kind: KeyKind) -> usize {
    table.keys.iter().filter(|key| key.kind == kind).count()
}

/// The parameters' values, if the numbers are as many and each fits.
fn values(callable: &Callable, numbers: &[u64]) -> Option<Vec<Value>> {
    if numbers.len() != callable.parameters.len() {
        return None;
    }
    let pairs = callable.parameters.iter().zip(numbers);
    pairs.map(|(parameter, &number)| Value::of(number, parameter.kind)).collect()
}

/// The entry that the keys (width and value each) select; each entry fits them.
fn lookup<'e>(table: &Table, entries: &[&'e Entry], keys: &[(u32, u64)]) -> Option<&'e Entry> {
    let mut matching = entries.iter().copied().filter(|entry| entry.matches(keys));
    if count(table, KeyKind::Lpm) == 1 && count(table, KeyKind::Ternary) == 0 {
        matching.min_by_key(|entry| Reverse(entry.prefix_length()))
    } else {
        matching.next()
    }
}
