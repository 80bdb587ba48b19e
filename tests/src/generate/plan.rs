//! What a generated file is like: how large, and what it is made of.

use super::random::Random;
use crate::tree::FIRST_WITH_PARSER;

/// From the first number to the second.
#[derive(Clone, Copy)]
pub struct Range(pub u64, pub u64);

/// Shares among the statements.
#[derive(Clone, Copy)]
pub struct Statements {
    pub empty: u64,
    pub assign: u64,
    pub choice: u64,
    pub block: u64,
    pub call: u64,
    pub apply: u64,
    pub header: u64,
    pub ending: u64,
}

#[derive(Clone, Copy)]
pub struct Plan {
    /// The widths that the program uses, few so that places fit.
    pub widths: Range,
    pub headers: Range,
    pub globals: Range,
    pub callables: Range,
    pub parameters: Range,
    pub locals: Range,
    pub tables: Range,
    /// In a version with a parser.
    pub states: Range,
    pub entries: Range,
    /// The members of the apply body.
    pub members: Range,
    /// How many numbers a body has, roughly.
    pub body: usize,
    /// What the ceiling of the apply body stays under.
    pub ceiling: u64,
    pub statements: Statements,
    /// How often, of a hundred, a callable can be listed by a table.
    pub table_actions: u64,
    /// How often, of a hundred, a key is more than a global or a field.
    pub computed_keys: u64,
    /// How often, of a hundred, a statement repeats a call as often as it can.
    pub repeats: u64,
    /// How many rules of form are not kept, at most.
    pub slips: u64,
}

const MIXED: Plan = Plan {
    widths: Range(1, 3),
    headers: Range(0, 2),
    globals: Range(0, 4),
    callables: Range(0, 3),
    parameters: Range(0, 3),
    locals: Range(0, 2),
    tables: Range(0, 2),
    states: Range(1, 3),
    entries: Range(0, 6),
    members: Range(1, 5),
    body: 24,
    ceiling: 2_000,
    statements: Statements { empty: 1, assign: 6, choice: 3, block: 3, call: 3, apply: 3, header: 2, ending: 2 },
    table_actions: 30,
    computed_keys: 25,
    repeats: 0,
    slips: 0,
};

/// A table or two with entries that match.
const TABLES: Plan = Plan {
    widths: Range(1, 1),
    headers: Range(0, 1),
    globals: Range(2, 3),
    callables: Range(1, 2),
    parameters: Range(0, 2),
    locals: Range(0, 1),
    tables: Range(1, 2),
    entries: Range(1, 6),
    members: Range(1, 3),
    body: 8,
    statements: Statements { empty: 0, assign: 3, choice: 1, block: 1, call: 1, apply: 12, header: 1, ending: 1 },
    table_actions: 90,
    computed_keys: 10,
    ..MIXED
};

/// Calls with arguments of all directions.
const CALLS: Plan = Plan {
    widths: Range(1, 1),
    headers: Range(0, 1),
    globals: Range(1, 3),
    callables: Range(1, 4),
    parameters: Range(1, 3),
    tables: Range(0, 0),
    entries: Range(0, 0),
    members: Range(1, 3),
    body: 14,
    statements: Statements { empty: 0, assign: 6, choice: 1, block: 2, call: 8, apply: 0, header: 1, ending: 2 },
    table_actions: 10,
    ..MIXED
};

const LARGE: Plan = Plan {
    globals: Range(0, 8),
    headers: Range(0, 3),
    callables: Range(0, 9),
    tables: Range(0, 4),
    states: Range(1, 8),
    entries: Range(0, 12),
    body: 90,
    ceiling: 40_000,
    repeats: 4,
    ..MIXED
};

const LARGEST: Plan = Plan {
    globals: Range(4, 16),
    callables: Range(8, 16),
    tables: Range(2, 8),
    states: Range(4, 16),
    entries: Range(4, 30),
    ..LARGE
};

/// Little but a parser.
const PARSER: Plan = Plan {
    widths: Range(1, 2),
    headers: Range(1, 2),
    globals: Range(2, 4),
    callables: Range(0, 1),
    tables: Range(0, 1),
    states: Range(1, 6),
    entries: Range(0, 2),
    members: Range(1, 1),
    body: 12,
    ..MIXED
};

/// Many steps.
const LONG: Plan = Plan { callables: Range(5, 7), ceiling: 1_000_000, repeats: 60, body: 40, ..MIXED };

/// Mostly more steps than the ceiling may be.
const TOO_LONG: Plan = Plan { callables: Range(6, 9), ceiling: 9_000_000, repeats: 70, ..LONG };

/// A plan for a file of at most so many bytes, of a version.
pub fn plan(random: &mut Random, most_bytes: usize, version: u64) -> Plan {
    let small = [MIXED, TABLES, TABLES, CALLS, CALLS];
    let large = [MIXED, TABLES, TABLES, CALLS, CALLS, LARGE, LARGE, LARGEST, LONG, TOO_LONG];
    let plan = if version >= FIRST_WITH_PARSER && random.chance(50) {
        PARSER
    } else if most_bytes < 300 {
        random.choose(&small)
    } else {
        random.choose(&large)
    };
    let slips = random.choose(&[0, 0, 0, 0, 0, 0, 1, 1, 1, 2]);
    Plan { slips, ..plan }
}
