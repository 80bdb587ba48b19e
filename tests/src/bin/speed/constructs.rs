//! The numbers of constructs, from which the files are made.

use second::numbers;

pub type Numbers = Vec<u64>;

/// The most members of a block.
pub const MEMBERS: usize = 64;

/// Directions of parameters.
pub const NONE: u64 = 0;
pub const IN: u64 = 1;
pub const OUT: u64 = 2;
pub const INOUT: u64 = 3;

/// Kinds of keys.
pub const EXACT: u64 = 0;
pub const LPM: u64 = 1;
pub const TERNARY: u64 = 2;

/// Operators.
pub const PLUS: u64 = 0;
pub const MINUS: u64 = 1;
pub const TIMES: u64 = 2;
pub const AND: u64 = 3;
pub const OR: u64 = 4;
pub const XOR: u64 = 5;
pub const LEFT: u64 = 6;
pub const RIGHT: u64 = 7;
pub const EQUAL: u64 = 8;
pub const LESS: u64 = 10;
pub const BOTH: u64 = 12;
pub const EITHER: u64 = 13;

pub fn bits(width: u64, value: u64) -> Numbers {
    vec![1, width, value]
}

pub fn local(number: u64) -> Numbers {
    vec![2, number]
}

pub fn parameter(number: u64) -> Numbers {
    vec![3, number]
}

pub fn global(number: u64) -> Numbers {
    vec![4, number]
}

pub fn field(global: u64, field: u64) -> Numbers {
    vec![5, global, field]
}

pub fn valid(global: u64) -> Numbers {
    vec![6, global]
}

pub fn not(operand: Numbers) -> Numbers {
    [vec![7], operand].concat()
}

pub fn complement(operand: Numbers) -> Numbers {
    [vec![8], operand].concat()
}

pub fn binary(operator: u64, left: Numbers, right: Numbers) -> Numbers {
    [vec![9, operator], left, right].concat()
}

pub fn cast(width: u64, operand: Numbers) -> Numbers {
    [vec![10, width], operand].concat()
}

pub fn slice(high: u64, low: u64, operand: Numbers) -> Numbers {
    [vec![11, high, low], operand].concat()
}

pub fn concatenation(left: Numbers, right: Numbers) -> Numbers {
    [vec![12], left, right].concat()
}

pub fn value_of(callable: u64, arguments: &[Numbers]) -> Numbers {
    [vec![13, callable, arguments.len() as u64], arguments.concat()].concat()
}

pub fn empty() -> Numbers {
    vec![0]
}

pub fn assign(target: Numbers, value: Numbers) -> Numbers {
    [vec![1], target, value].concat()
}

pub fn either_or(condition: Numbers, first: Numbers, second: Numbers) -> Numbers {
    [vec![2], condition, first, second].concat()
}

/// Statements as one block, with blocks inside where there are more than a block may have.
pub fn block(members: &[Numbers]) -> Numbers {
    if members.len() <= MEMBERS {
        return [vec![3, members.len() as u64], members.concat()].concat();
    }
    block(&members.chunks(MEMBERS).map(block).collect::<Vec<_>>())
}

pub fn call(callable: u64, arguments: &[Numbers]) -> Numbers {
    [vec![4, callable, arguments.len() as u64], arguments.concat()].concat()
}

pub fn apply(table: u64) -> Numbers {
    vec![5, table]
}

pub fn give_back(value: Numbers) -> Numbers {
    [vec![6], value].concat()
}

pub fn extract(global: u64) -> Numbers {
    vec![11, global]
}

/// A state that accepts behind its statement.
pub fn accepting(statement: Numbers) -> Numbers {
    [statement, vec![1]].concat()
}

/// A state that selects behind its statement: an expression, and pairs of a value and a later state.
pub fn selecting(statement: Numbers, expression: Numbers, pairs: &[[u64; 2]]) -> Numbers {
    [statement, vec![4], expression, vec![pairs.len() as u64], pairs.concat()].concat()
}

/// A list: a count, then its members.
pub fn list(members: &[Numbers]) -> Numbers {
    [vec![members.len() as u64], members.concat()].concat()
}

/// An action with its parameters, a direction and a type each, and its locals' types.
pub fn action(parameters: &[[u64; 2]], locals: &[u64], body: Numbers) -> Numbers {
    [vec![0], head(parameters, locals), body].concat()
}

/// A function with what it returns.
pub fn function(returns: u64, parameters: &[[u64; 2]], locals: &[u64], body: Numbers) -> Numbers {
    [vec![1, returns], head(parameters, locals), body].concat()
}

fn head(parameters: &[[u64; 2]], locals: &[u64]) -> Numbers {
    let count = parameters.len() as u64;
    [vec![count], parameters.concat(), vec![locals.len() as u64], locals.to_vec()].concat()
}

/// A table: kinds and expressions of its keys, its actions, the default's position, its arguments.
pub fn table(keys: &[(u64, Numbers)], actions: &[u64], default: u64, arguments: &[u64]) -> Numbers {
    let keys: Vec<Numbers> = keys.iter().map(|(kind, key)| [vec![*kind], key.clone()].concat()).collect();
    let count = |list: &[u64]| vec![list.len() as u64];
    [list(&keys), count(actions), actions.to_vec(), vec![default], count(arguments), arguments.to_vec()].concat()
}

/// A bench file, of version 2 if it has states; what is not named has no members.
#[derive(Default)]
pub struct Bench {
    pub header_types: Vec<Numbers>,
    pub globals: Numbers,
    pub callables: Vec<Numbers>,
    pub tables: Vec<Numbers>,
    pub states: Vec<Numbers>,
    pub body: Numbers,
    pub entries: Vec<Numbers>,
    pub store: Numbers,
    /// Only beside states.
    pub packet: Numbers,
}

impl Bench {
    pub fn bytes(&self) -> Vec<u8> {
        let counted = |list: &[u64]| [&[list.len() as u64], list].concat();
        let (version, states, packet) = match self.states[..] {
            [] => (1, vec![], vec![]),
            _ => (2, list(&self.states), counted(&self.packet)),
        };
        let numbers = [
            vec![version],
            list(&self.header_types),
            counted(&self.globals),
            list(&self.callables),
            list(&self.tables),
            states,
            self.body.clone(),
            list(&self.entries),
            self.store.clone(),
            packet,
        ];
        numbers::write(&numbers.concat())
    }
}

/// The most copies that leave a file within so many bytes.
pub fn most(size: usize, file: impl Fn(usize) -> Vec<u8>) -> usize {
    (1..=size).take_while(|&copies| file(copies).len() <= size).last().expect("one copy fits")
}
