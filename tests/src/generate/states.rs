//! The states of a parser and what stands in them; well formed but for slips.

use super::program::Builder;
use super::scope::*;
use crate::inputs::MOST_PACKET;
use crate::tree::Type;
use crate::value::largest;

impl Builder<'_> {
    pub fn states(&mut self) {
        let count = self.random.within(self.plan.states);
        self.draft.push(count, 1, 16);
        let scope = Scope::in_state(self.declared.callables.len());
        for number in 0..count {
            self.body_begins(self.plan.ceiling / 16);
            let members = self.random.between(1, 3);
            self.members(&scope, members);
            self.transition(&scope, number, count);
        }
    }

    /// A transition of a state among so many; the last one leads nowhere.
    fn transition(&mut self, scope: &Scope, number: u64, count: u64) {
        let shares = if number + 1 < count { [1, 3, 1, 5, 8] } else { [1, 6, 2, 0, 1] };
        let tag = self.random.by_share(&shares) as u64;
        self.draft.push(tag, 0, 4);
        match tag {
            2 => self.push_error(),
            3 => self.push_next(number, count),
            4 => self.select(scope, number, count),
            _ => {}
        }
    }

    fn push_error(&mut self) {
        let error = self.random.value(Type::Bits(8));
        self.draft.push_free(error, 0, 255);
    }

    /// A later state; after a slip any, or one that is not there.
    fn push_next(&mut self, number: u64, count: u64) {
        let next =
            if self.slips() { self.random.between(0, count) } else { self.random.between(number + 1, count - 1) };
        self.draft.push_name(next as usize, count as usize);
    }

    /// A select whose values come again at times; that of the last state has no pair.
    fn select(&mut self, scope: &Scope, number: u64, count: u64) {
        let (width, _) = self.bits_for_choice(scope);
        let pairs = if number + 1 < count { self.random.choose(&[0, 1, 2, 3, 4, 5, 6, 16]) } else { 0 };
        self.draft.push(pairs, 0, 16);
        for pair in 0..pairs {
            if pair > 0 && self.random.chance(20) {
                let before = self.draft.items[self.draft.len() - 2];
                self.draft.items.push(before);
            } else {
                let edge = self.random.choose(&[Some(0), Some(largest(width)), None]);
                self.push_value_or(edge, Type::Bits(width));
            }
            self.push_next(number, count);
        }
    }

    /// A statement of a state; after a slip one that does not stand there.
    pub fn state_statement(&mut self, scope: &Scope, depth: usize) {
        if self.slips() {
            return self.barred(scope, depth);
        }
        match self.random.by_share(&[1, 4, 2, 2, 2, 9]) {
            0 => self.statement_tag(0),
            1 => self.assign(scope, depth),
            2 => self.choice(scope, depth),
            3 => self.block(scope, depth),
            4 => self.set_header(scope, depth),
            _ => self.extract_or_verify(scope, depth),
        }
    }

    pub fn extract_or_verify(&mut self, scope: &Scope, depth: usize) {
        if self.random.chance(75) {
            self.extract(scope, depth);
        } else {
            self.statement_tag(12);
            self.expression(scope, Type::Bool, depth + 1);
            self.push_error();
        }
    }

    /// An extract of a header of whole bytes; after a slip of any global.
    fn extract(&mut self, scope: &Scope, depth: usize) {
        let globals = self.declared.globals.len();
        let headers = if self.slips() { (0..globals).collect() } else { scope.extractable(&self.declared) };
        if headers.is_empty() {
            return self.assign(scope, depth);
        }
        let header = self.random.choose(&headers);
        self.extracted += bytes_of(&self.declared, header).unwrap_or(0);
        self.statement_tag(11);
        self.draft.push_name(header, globals);
    }

    /// A call, an apply, a return or an exit.
    fn barred(&mut self, scope: &Scope, depth: usize) {
        let callees = self.callees(scope, |_| true);
        let tables = self.declared.tables.len();
        match self.random.between(4, 8) {
            4 if !callees.is_empty() => {
                let callee = self.random.choose(&callees);
                self.statement_tag(4);
                self.call(scope, callee, depth);
            }
            5 if tables > 0 => {
                let table = self.random.index(tables);
                self.statement_tag(5);
                self.draft.push_name(table, tables);
            }
            6 => {
                self.statement_tag(6);
                self.expression(scope, Type::Bool, depth + 1);
            }
            7 => self.statement_tag(7),
            _ => self.statement_tag(8),
        }
    }

    /// A packet for all extracts, a shorter or a longer one. It often repeats a byte, so that selects find their values;
    /// in some files it has a byte too few.
    pub fn packet(&mut self) {
        let all = self.extracted as u64;
        let length = match self.random.between(0, 7) {
            0 => self.random.between(0, all),
            1 => all.saturating_sub(1),
            2 | 3 => all,
            _ => all + self.random.between(0, 3),
        };
        let length = length.min(MOST_PACKET);
        let told = length + u64::from(self.random.chance(3));
        self.draft.push(told, 0, MOST_PACKET);
        let repeated = self.random.choose(&[Some(0), Some(255), None]);
        for _ in 0..length {
            let byte = repeated.filter(|_| self.random.chance(90));
            self.push_value_or(byte, Type::Bits(8));
        }
    }
}
