//! The tree of a program. A node keeps the place of each number that a refusal may be charged to.

use crate::numbers::Number;

#[derive(Clone, Copy, Debug, PartialEq, Eq)]
pub enum Type {
    Bool,
    Bits(u32),
}

/// From this version on a program has a parser.
pub const FIRST_WITH_PARSER: u64 = 2;

pub struct Program {
    pub version: u64,
    /// Each header type is its field widths.
    pub headers: Vec<Vec<u32>>,
    pub globals: Vec<Global>,
    pub callables: Vec<Callable>,
    pub tables: Vec<Table>,
    /// The parser; none in a version without one.
    pub states: Vec<State>,
    pub apply_body: Statement,
}

impl Program {
    pub fn has_parser(&self) -> bool {
        self.version >= FIRST_WITH_PARSER
    }
}

pub struct Global {
    pub place: usize,
    pub kind: GlobalKind,
}

#[derive(Clone, Copy, Debug, PartialEq, Eq)]
pub enum GlobalKind {
    Plain(Type),
    /// A header, by the number of its type.
    Header(usize),
}

pub struct Callable {
    pub place: usize,
    pub kind: CallableKind,
    pub parameters: Vec<Parameter>,
    pub locals: Vec<Type>,
    pub body: Statement,
}

#[derive(Clone, Copy, Debug, PartialEq, Eq)]
pub enum CallableKind {
    Action,
    /// A function and the type it returns.
    Function(Type),
}

#[derive(Clone, Copy, Debug, PartialEq, Eq)]
pub enum Direction {
    None,
    In,
    Out,
    Inout,
}

impl Direction {
    /// Whether the callee may write the parameter, and the call writes it back.
    pub fn writes(self) -> bool {
        matches!(self, Direction::Out | Direction::Inout)
    }
}

#[derive(Clone, Copy, Debug)]
pub struct Parameter {
    pub direction: Direction,
    pub kind: Type,
}

pub struct Table {
    pub keys: Vec<Key>,
    pub actions: Vec<Number>,
    pub default: Number,
    pub default_count: Number,
    pub default_arguments: Vec<Number>,
}

pub struct Key {
    pub place: usize,
    pub kind: KeyKind,
    pub expression: Expression,
}

#[derive(Clone, Copy, Debug, PartialEq, Eq)]
pub enum KeyKind {
    Exact,
    Lpm,
    Ternary,
}

/// A state of the parser.
pub struct State {
    pub statement: Statement,
    pub transition: Transition,
}

/// What follows a state's statement.
pub enum Transition {
    None,
    Accept,
    /// A reject with its error.
    Reject(u64),
    Next(Number),
    Select {
        expression: Expression,
        pairs: Vec<Pair>,
    },
}

/// A value of a select, and the state that it leads to.
pub struct Pair {
    pub value: Number,
    pub state: Number,
}

pub struct Expression {
    /// The tag's place.
    pub place: usize,
    pub form: ExpressionForm,
}

pub enum ExpressionForm {
    Bool(u64),
    Bits { width: u32, value: u64 },
    Local(Number),
    Parameter(Number),
    Global(Number),
    Field { global: Number, field: Number },
    Valid(Number),
    Not(Box<Expression>),
    Complement(Box<Expression>),
    Binary { operator: Operator, left: Box<Expression>, right: Box<Expression> },
    Cast { width: u32, operand: Box<Expression> },
    Slice { high: u32, low: u32, operand: Box<Expression> },
    Concatenation(Box<Expression>, Box<Expression>),
    Call(Call),
}

pub struct Call {
    pub callable: Number,
    pub arguments: Vec<Expression>,
}

#[derive(Clone, Copy, Debug, PartialEq, Eq)]
pub enum Operator {
    Plus,
    Minus,
    Times,
    And,
    Or,
    Xor,
    ShiftLeft,
    ShiftRight,
    Equal,
    Unequal,
    Less,
    LessOrEqual,
    Both,
    Either,
}

/// All operators, in the file's order.
pub const OPERATORS: [Operator; 14] = [
    Operator::Plus,
    Operator::Minus,
    Operator::Times,
    Operator::And,
    Operator::Or,
    Operator::Xor,
    Operator::ShiftLeft,
    Operator::ShiftRight,
    Operator::Equal,
    Operator::Unequal,
    Operator::Less,
    Operator::LessOrEqual,
    Operator::Both,
    Operator::Either,
];

pub struct Statement {
    /// The tag's place.
    pub place: usize,
    pub form: StatementForm,
}

pub enum StatementForm {
    Empty,
    Assign { target: Expression, value: Expression },
    If { condition: Expression, then_branch: Box<Statement>, else_branch: Box<Statement> },
    Block(Vec<Statement>),
    Call(Call),
    Apply(Number),
    ReturnValue(Expression),
    Return,
    Exit,
    SetValid(Number),
    SetInvalid(Number),
    Extract(Number),
    Verify { condition: Expression, error: u64 },
}

/// How many bytes a header's fields take, if they take whole bytes.
pub fn whole_bytes(widths: &[u32]) -> Option<usize> {
    let bits: u32 = widths.iter().sum();
    bits.is_multiple_of(8).then_some(bits as usize / 8)
}

/// The member that a number names, if it names one.
pub fn named<T>(members: &[T], number: u64) -> Option<&T> {
    usize::try_from(number).ok().and_then(|index| members.get(index))
}
