//! The numbers behind a program that nobody judged, cut into entries, store and packet as far as they can be, fit or not.

use crate::numbers::Number;
use crate::tree::*;

/// The entries that the numbers begin with.
pub struct Entries<'a> {
    /// How many there should be; none where the numbers have ended already.
    pub count: Option<Number>,
    /// Those that can be cut out.
    pub members: Vec<Entry>,
    /// What stands behind them.
    pub rest: &'a [Number],
}

pub struct Entry {
    pub table: Number,
    pub patterns: Vec<Pattern>,
    /// A position in the table's list of actions.
    pub position: Number,
    /// One for each parameter; none where the position leads to no callable, so that nobody knows how many there are.
    pub arguments: Option<Vec<Number>>,
}

/// What an entry asks of one key.
pub enum Pattern {
    Exact(Number),
    Lpm { value: Number, length: Number },
    Ternary { value: Number, mask: Number },
}

/// The store that the numbers begin with.
pub struct Store<'a> {
    /// The first globals' numbers, for as many globals as can be cut out.
    pub variables: Vec<Variable>,
    /// What stands behind them.
    pub rest: &'a [Number],
}

pub enum Variable {
    Plain(Number),
    Header { mark: Number, fields: Vec<Number> },
}

/// The packet that the numbers begin with.
pub struct Packet<'a> {
    /// How many bytes there should be; none where the numbers have ended already.
    pub count: Option<Number>,
    /// Those that are there.
    pub bytes: &'a [Number],
    /// What stands behind them.
    pub rest: &'a [Number],
}

impl Packet<'_> {
    /// Whether there are as many bytes as the count says.
    pub fn is_all_there(&self) -> bool {
        self.count.is_some_and(|count| count.value == self.bytes.len() as u64)
    }
}

impl Entries<'_> {
    /// Whether there are as many as the count says, each with its arguments.
    pub fn are_all_there(&self) -> bool {
        let whole = self.members.iter().all(|entry| entry.arguments.is_some());
        whole && self.count.is_some_and(|count| count.value == self.members.len() as u64)
    }
}

/// The entries, up to the first that cannot be cut out whole.
pub fn entries<'a>(program: &Program, rest: &'a [Number]) -> Entries<'a> {
    let mut cutter = Cutter { rest };
    let count = cutter.number();
    let mut members: Vec<Entry> = Vec::new();
    while count.is_some_and(|count| (members.len() as u64) < count.value) {
        let start = cutter.rest;
        let Some(entry) = cutter.entry(program) else {
            cutter.rest = start;
            break;
        };
        let last = entry.arguments.is_none();
        members.push(entry);
        if last {
            break;
        }
    }
    Entries { count, members, rest: cutter.rest }
}

/// The store, up to the first global that cannot be cut out whole.
pub fn store<'a>(program: &Program, rest: &'a [Number]) -> Store<'a> {
    let mut cutter = Cutter { rest };
    let mut variables = Vec::new();
    for global in &program.globals {
        let start = cutter.rest;
        let Some(variable) = cutter.variable(program, global) else {
            cutter.rest = start;
            break;
        };
        variables.push(variable);
    }
    Store { variables, rest: cutter.rest }
}

/// The packet of a program with a parser, up to the numbers' end.
pub fn packet(numbers: &[Number]) -> Packet<'_> {
    let mut cutter = Cutter { rest: numbers };
    let count = cutter.number();
    let wanted = count.map_or(0, |count| count.value);
    let there = usize::try_from(wanted).map_or(cutter.rest.len(), |wanted| wanted.min(cutter.rest.len()));
    let (bytes, rest) = cutter.rest.split_at(there);
    Packet { count, bytes, rest }
}

struct Cutter<'a> {
    rest: &'a [Number],
}

impl Cutter<'_> {
    fn number(&mut self) -> Option<Number> {
        let (first, rest) = self.rest.split_first()?;
        self.rest = rest;
        Some(*first)
    }

    /// One number for each member of a list.
    fn numbers<T>(&mut self, members: &[T]) -> Option<Vec<Number>> {
        members.iter().map(|_| self.number()).collect()
    }

    fn entry(&mut self, program: &Program) -> Option<Entry> {
        let number = self.number()?;
        let table = named(&program.tables, number.value)?;
        let patterns = table.keys.iter().map(|key| self.pattern(key.kind)).collect::<Option<_>>()?;
        let position = self.number()?;
        let action = named(&table.actions, position.value).and_then(|action| named(&program.callables, action.value));
        let arguments = match action {
            Some(action) => Some(self.numbers(&action.parameters)?),
            None => None,
        };
        Some(Entry { table: number, patterns, position, arguments })
    }

    fn pattern(&mut self, kind: KeyKind) -> Option<Pattern> {
        let value = self.number()?;
        Some(match kind {
            KeyKind::Exact => Pattern::Exact(value),
            KeyKind::Lpm => Pattern::Lpm { value, length: self.number()? },
            KeyKind::Ternary => Pattern::Ternary { value, mask: self.number()? },
        })
    }

    fn variable(&mut self, program: &Program, global: &Global) -> Option<Variable> {
        match global.kind {
            GlobalKind::Plain(_) => self.number().map(Variable::Plain),
            GlobalKind::Header(header) => {
                let widths = program.headers.get(header)?;
                Some(Variable::Header { mark: self.number()?, fields: self.numbers(widths)? })
            }
        }
    }
}
