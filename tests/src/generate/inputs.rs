//! Entries that overlap and tie, and a store that fits. The packet is made elsewhere.

use super::program::{largest_number, Builder};
use super::scope::*;
use crate::tree::*;
use crate::value::largest;

/// The store's numbers, one list a global.
pub type Store = Vec<Vec<u64>>;

impl Builder<'_> {
    /// Entries, store and packet after the program.
    pub fn inputs(&mut self) {
        let store = self.store();
        self.entries(&store);
        for (index, numbers) in store.iter().enumerate() {
            self.push_variable(self.declared.globals[index], numbers);
        }
        if self.draft.has_parser() {
            self.packet();
        }
    }

    fn store(&mut self) -> Store {
        (0..self.declared.globals.len()).map(|index| self.variable(self.declared.globals[index])).collect()
    }

    fn variable(&mut self, kind: GlobalKind) -> Vec<u64> {
        match kind {
            GlobalKind::Plain(kind) => vec![self.random.value(kind)],
            GlobalKind::Header(header) => {
                let valid = self.random.chance(65);
                let mut numbers = vec![u64::from(valid)];
                for field in 0..self.declared.headers[header].len() {
                    let width = self.declared.headers[header][field];
                    numbers.push(if valid { self.random.value(Type::Bits(width)) } else { 0 });
                }
                numbers
            }
        }
    }

    fn push_variable(&mut self, kind: GlobalKind, numbers: &[u64]) {
        match kind {
            GlobalKind::Plain(kind) => self.draft.push_free(numbers[0], 0, largest_number(kind)),
            GlobalKind::Header(header) => {
                self.draft.push_free(numbers[0], 0, 1);
                for (field, &number) in numbers[1..].iter().enumerate() {
                    self.draft.push_free(number, 0, largest(self.declared.headers[header][field]));
                }
            }
        }
    }

    fn entries(&mut self, store: &Store) {
        let count = if self.declared.tables.is_empty() { 0 } else { self.random.within(self.plan.entries) };
        self.draft.push(count, 0, 64);
        for _ in 0..count {
            self.entry(store);
        }
    }

    fn entry(&mut self, store: &Store) {
        let table = self.random.index(self.declared.tables.len());
        self.draft.push_name(table, self.declared.tables.len());
        for key in 0..self.declared.tables[table].keys.len() {
            self.pattern(self.declared.tables[table].keys[key], store);
        }
        let actions = self.declared.tables[table].actions.clone();
        let position = self.random.index(actions.len());
        self.draft.push_name(position, actions.len());
        for parameter in self.declared.callables[actions[position]].parameters.clone() {
            self.push_value(parameter.kind);
        }
    }

    /// A value for a key, and its length or mask; mostly one that the store's own value matches.
    fn pattern(&mut self, key: DeclaredKey, store: &Store) {
        let all = largest(key.width);
        let near = key.reads.filter(|_| self.random.chance(80)).map(|place| stored(place, store));
        let value = near.unwrap_or_else(|| self.random.value(Type::Bits(key.width)));
        match key.kind {
            KeyKind::Exact => self.draft.push_free(value, 0, all),
            KeyKind::Lpm => {
                let length = self.prefix_length(key.width);
                let prefix = if self.slips() { all } else { all ^ largest(key.width - length as u32) };
                self.draft.push_free(value & prefix, 0, all);
                self.draft.push_free(length, 0, u64::from(key.width));
            }
            KeyKind::Ternary => {
                let mask = self.random.value(Type::Bits(key.width));
                let kept = if self.slips() { all } else { mask };
                self.draft.push_free(value & kept, 0, all);
                self.draft.push_free(mask, 0, all);
            }
        }
    }

    fn prefix_length(&mut self, width: u32) -> u64 {
        let width = u64::from(width);
        match self.random.between(0, 5) {
            0 => 0,
            1 => width,
            2 => 1,
            3 => width - 1,
            _ => self.random.between(0, width),
        }
    }
}

/// What the store holds at a global or field.
fn stored(place: Place, store: &Store) -> u64 {
    match place {
        Place::Global(global) => store[global][0],
        Place::Field { global, field } => store[global][field + 1],
        Place::Local(_) | Place::Parameter(_) => unreachable!("a key reads no local and no parameter"),
    }
}
