//! Entries, store and packet: refusals 10, 11, 16 and 12, strictly in file order.

use crate::answer::Refusal;
use crate::judge::key_type;
use crate::numbers::Number;
use crate::tree::*;
use crate::value::{fits, largest, Value};

pub const MOST_ENTRIES: u64 = 64;
pub const MOST_PACKET: u64 = 512;

pub struct Inputs {
    pub entries: Vec<Entry>,
    pub store: Vec<Variable>,
    /// The packet's bytes; none for a program without a parser.
    pub packet: Vec<u8>,
}

pub struct Entry {
    pub table: usize,
    pub patterns: Vec<Pattern>,
    /// A position in the table's list of actions.
    pub position: usize,
    pub arguments: Vec<u64>,
}

/// What an entry asks of one key.
pub enum Pattern {
    Exact(u64),
    Lpm { value: u64, length: u64 },
    Ternary { value: u64, mask: u64 },
}

#[derive(Clone, Debug, PartialEq, Eq)]
pub enum Variable {
    Plain(Value),
    Header { valid: bool, fields: Vec<Value> },
}

impl Entry {
    /// Whether the keys, width and value each, match all patterns, where these fit.
    pub fn matches(&self, keys: &[(u32, u64)]) -> bool {
        let mut pairs = self.patterns.iter().zip(keys);
        pairs.all(|(pattern, &(width, key))| pattern.matches(key, width))
    }

    /// The length of its prefix; 0 without one.
    pub fn prefix_length(&self) -> u64 {
        let length = |pattern: &Pattern| match pattern {
            Pattern::Lpm { length, .. } => Some(*length),
            Pattern::Exact(_) | Pattern::Ternary { .. } => None,
        };
        self.patterns.iter().find_map(length).unwrap_or(0)
    }
}

impl Pattern {
    /// Whether it fits a key of the width, with no bit outside prefix or mask.
    pub fn fits(&self, width: u32) -> bool {
        match *self {
            Pattern::Exact(value) => value <= largest(width),
            Pattern::Lpm { value, length } => value <= largest(width) && prefix_fits(value, length, width),
            Pattern::Ternary { value, mask } => value <= largest(width) && mask_fits(value, mask, width),
        }
    }

    /// Whether a key of the width matches, where the pattern fits.
    fn matches(&self, key: u64, width: u32) -> bool {
        match *self {
            Pattern::Exact(value) => key == value,
            Pattern::Lpm { value, length } => key & prefix(length, width) == value,
            Pattern::Ternary { value, mask } => key & mask == value,
        }
    }
}

/// The highest `length` bits of a width, all set.
fn prefix(length: u64, width: u32) -> u64 {
    largest(width) ^ largest(width - length as u32)
}

fn prefix_fits(value: u64, length: u64, width: u32) -> bool {
    length <= u64::from(width) && value & !prefix(length, width) == 0
}

fn mask_fits(value: u64, mask: u64, width: u32) -> bool {
    mask <= largest(width) && value & !mask == 0
}

/// Entries, store and packet of a well formed program, with no number left over.
pub fn judge(program: &Program, rest: &[Number], length: usize) -> Result<Inputs, Refusal> {
    let mut reader = Reader { rest, length, refusal: 10 };
    let entries = reader.entries(program)?;
    reader.refusal = 11;
    let store = reader.store(program)?;
    reader.refusal = 16;
    let packet = reader.packet(program)?;
    match reader.rest.first() {
        Some(left_over) => Err(Refusal::at(12, left_over.place)),
        None => Ok(Inputs { entries, store, packet }),
    }
}

/// Store and packet that the numbers begin with, if they do; each header of the globals has a type.
pub fn store_and_packet_of(program: &Program, rest: &[Number]) -> Option<(Vec<Variable>, Vec<u8>)> {
    let mut reader = Reader { rest, length: 0, refusal: 11 };
    Some((reader.store(program).ok()?, reader.packet(program).ok()?))
}

/// The store that the numbers begin with, if they do; each header of the globals has a type.
pub fn store_of(program: &Program, rest: &[Number]) -> Option<Vec<Variable>> {
    Reader { rest, length: 0, refusal: 11 }.store(program).ok()
}

struct Reader<'a> {
    rest: &'a [Number],
    length: usize,
    /// What a bad or missing number is refused with.
    refusal: u8,
}

impl Reader<'_> {
    /// What the next number stands for, if it is there and stands for something.
    fn read<T>(&mut self, meaning: impl Fn(u64) -> Option<T>) -> Result<T, Refusal> {
        let (first, rest) = self.rest.split_first().ok_or(Refusal::at(self.refusal, self.length))?;
        self.rest = rest;
        meaning(first.value).ok_or(Refusal::at(self.refusal, first.place))
    }

    /// The next number, if it is there and good.
    fn number(&mut self, good: impl Fn(u64) -> bool) -> Result<u64, Refusal> {
        self.read(|number| good(number).then_some(number))
    }

    fn entries(&mut self, program: &Program) -> Result<Vec<Entry>, Refusal> {
        let count = self.number(|count| count <= MOST_ENTRIES)?;
        (0..count).map(|_| self.entry(program)).collect()
    }

    fn entry(&mut self, program: &Program) -> Result<Entry, Refusal> {
        let table = self.number(|table| named(&program.tables, table).is_some())? as usize;
        let Table { keys, actions, .. } = &program.tables[table];
        let mut patterns = Vec::new();
        for key in keys {
            patterns.push(self.pattern(key.kind, key_type(program, key)?)?);
        }
        let position = self.number(|position| named(actions, position).is_some())? as usize;
        let action = &program.callables[actions[position].value as usize];
        let mut arguments = Vec::new();
        for parameter in &action.parameters {
            arguments.push(self.number(|argument| fits(argument, parameter.kind))?);
        }
        Ok(Entry { table, patterns, position, arguments })
    }

    fn pattern(&mut self, kind: KeyKind, key: Type) -> Result<Pattern, Refusal> {
        let value = self.number(|value| fits(value, key))?;
        let Type::Bits(width) = key else { unreachable!("the judge accepts keys of bits only") };
        Ok(match kind {
            KeyKind::Exact => Pattern::Exact(value),
            KeyKind::Lpm => {
                let length = self.number(|length| prefix_fits(value, length, width))?;
                Pattern::Lpm { value, length }
            }
            KeyKind::Ternary => {
                let mask = self.number(|mask| mask_fits(value, mask, width))?;
                Pattern::Ternary { value, mask }
            }
        })
    }

    fn store(&mut self, program: &Program) -> Result<Vec<Variable>, Refusal> {
        program.globals.iter().map(|global| self.variable(program, global.kind)).collect()
    }

    fn variable(&mut self, program: &Program, kind: GlobalKind) -> Result<Variable, Refusal> {
        match kind {
            GlobalKind::Plain(kind) => self.read(|number| Value::of(number, kind)).map(Variable::Plain),
            GlobalKind::Header(header) => {
                let valid = self.number(|mark| mark <= 1)? == 1;
                let widths = &program.headers[header];
                let fields = widths.iter().map(|&width| self.field(width, valid)).collect::<Result<_, _>>()?;
                Ok(Variable::Header { valid, fields })
            }
        }
    }

    /// The packet that stands behind the store, if the program has a parser.
    fn packet(&mut self, program: &Program) -> Result<Vec<u8>, Refusal> {
        if !program.has_parser() {
            return Ok(Vec::new());
        }
        let count = self.number(|count| count <= MOST_PACKET)?;
        (0..count).map(|_| self.read(|number| u8::try_from(number).ok())).collect()
    }

    fn field(&mut self, width: u32, valid: bool) -> Result<Value, Refusal> {
        let value = self.number(|number| number <= largest(width) && (valid || number == 0))?;
        Ok(Value::Bits { width, value })
    }
}

/// The store's numbers in file order.
pub fn store_numbers(store: &[Variable]) -> Vec<u64> {
    let mut numbers = Vec::new();
    for variable in store {
        match variable {
            Variable::Plain(value) => numbers.push(value.number()),
            Variable::Header { valid, fields } => {
                numbers.push(u64::from(*valid));
                numbers.extend(fields.iter().map(|field| field.number()));
            }
        }
    }
    numbers
}
