//! Statements and expressions; well formed but for slips.

use super::draft::Sort;
use super::plan::Statements;
use super::program::Builder;
use super::scope::*;
use crate::tree::*;

impl Builder<'_> {
    /// An expression of a type.
    pub fn expression(&mut self, scope: &Scope, kind: Type, depth: usize) {
        let kind = if self.slips() { self.kind() } else { kind };
        let start = self.draft.len();
        self.ceiling += 1;
        if !self.has_room(depth) || self.random.chance(25) {
            self.leaf(scope, kind);
        } else if !(self.random.chance(20) && self.call_for_value(scope, kind, depth)) {
            self.operation(scope, kind, depth);
        }
        self.draft.close(Sort::Expression, start);
    }

    /// A place or a literal.
    fn leaf(&mut self, scope: &Scope, kind: Type) {
        let places = self.places(scope, kind);
        if !places.is_empty() && self.random.chance(70) {
            let place = self.random.choose(&places);
            return self.place(scope, place, 0, 13);
        }
        match kind {
            Type::Bool => self.tag(0),
            Type::Bits(width) => {
                self.tag(1);
                self.draft.push_free(u64::from(width), 1, 64);
            }
        }
        self.push_value(kind);
    }

    /// The places of a type that can be read here; after a slip the globals in a function too.
    fn places(&mut self, scope: &Scope, kind: Type) -> Vec<Place> {
        if self.slips() {
            Scope::outside(scope.reach).places(&self.declared, kind)
        } else {
            scope.places(&self.declared, kind)
        }
    }

    fn tag(&mut self, tag: u64) {
        self.draft.push(tag, 0, 13);
    }

    /// A place, its tag from a list that runs from `least` to `most`.
    pub fn place(&mut self, scope: &Scope, place: Place, least: u64, most: u64) {
        match place {
            Place::Local(index) => {
                self.draft.push(2, least, most);
                self.draft.push_name(index, scope.locals.len());
            }
            Place::Parameter(index) => {
                self.draft.push(3, least, most);
                self.draft.push_name(index, scope.parameters.len());
            }
            Place::Global(index) => {
                self.draft.push(4, least, most);
                self.draft.push_name(index, self.declared.globals.len());
            }
            Place::Field { global, field } => {
                self.draft.push(5, least, most);
                self.draft.push_name(global, self.declared.globals.len());
                self.draft.push_name(field, self.field_count(global));
            }
        }
    }

    fn field_count(&self, global: usize) -> usize {
        match self.declared.globals[global] {
            GlobalKind::Plain(_) => 0,
            GlobalKind::Header(header) => self.declared.headers[header].len(),
        }
    }

    /// An expression of a type with an operand or two.
    fn operation(&mut self, scope: &Scope, kind: Type, depth: usize) {
        match kind {
            Type::Bool => self.bool_operation(scope, depth),
            Type::Bits(width) => self.bits_operation(scope, width, depth),
        }
    }

    fn bool_operation(&mut self, scope: &Scope, depth: usize) {
        match self.random.between(0, 7) {
            0 => self.valid(scope, depth),
            1 => self.not(scope, depth),
            2 | 3 => {
                let operator = self.random.between(12, 13);
                self.binary(scope, operator, [Type::Bool, Type::Bool], depth);
            }
            4 => {
                let operator = self.random.between(8, 9);
                let kind = self.kind();
                self.binary(scope, operator, [kind, kind], depth);
            }
            _ => {
                let operator = self.random.between(8, 11);
                let kind = Type::Bits(self.width());
                self.binary(scope, operator, [kind, kind], depth);
            }
        }
    }

    fn valid(&mut self, scope: &Scope, depth: usize) {
        let Some(header) = self.header(scope) else { return self.not(scope, depth) };
        self.tag(6);
        self.draft.push_name(header, self.declared.globals.len());
    }

    /// A header that can be named here; after a slip any global.
    fn header(&mut self, scope: &Scope) -> Option<usize> {
        let globals = self.declared.globals.len();
        let headers = if self.slips() { (0..globals).collect() } else { scope.headers(&self.declared) };
        (!headers.is_empty()).then(|| self.random.choose(&headers))
    }

    fn not(&mut self, scope: &Scope, depth: usize) {
        self.tag(7);
        self.expression(scope, Type::Bool, depth + 1);
    }

    fn binary(&mut self, scope: &Scope, operator: u64, kinds: [Type; 2], depth: usize) {
        self.tag(9);
        self.draft.push_free(operator, 0, 13);
        for kind in kinds {
            self.expression(scope, kind, depth + 1);
        }
    }

    fn bits_operation(&mut self, scope: &Scope, width: u32, depth: usize) {
        let kind = Type::Bits(width);
        match self.random.between(0, 9) {
            0 => {
                self.tag(8);
                self.expression(scope, kind, depth + 1);
            }
            1 | 2 => {
                let operator = self.random.between(6, 7);
                let distance = Type::Bits(self.width());
                self.binary(scope, operator, [kind, distance], depth);
            }
            3 => {
                self.tag(10);
                self.draft.push_free(u64::from(width), 1, 64);
                let operand = Type::Bits(self.width());
                self.expression(scope, operand, depth + 1);
            }
            4 => self.slice(scope, width, depth),
            5 if width > 1 => self.concatenation(scope, width, depth),
            _ => {
                let operator = self.random.between(0, 5);
                self.binary(scope, operator, [kind, kind], depth);
            }
        }
    }

    /// A slice of so many bits.
    fn slice(&mut self, scope: &Scope, width: u32, depth: usize) {
        let whole = self.width().max(width);
        let low = self.random.between(0, u64::from(whole - width));
        let high = low + u64::from(width) - u64::from(!self.slips());
        self.tag(11);
        self.draft.push_free(high.min(63), 0, 63);
        self.draft.push_free(low, 0, 63);
        self.expression(scope, Type::Bits(whole), depth + 1);
    }

    /// Two parts that have so many bits together.
    fn concatenation(&mut self, scope: &Scope, width: u32, depth: usize) {
        let high = self.random.between(1, u64::from(width) - 1) as u32;
        self.tag(12);
        self.expression(scope, Type::Bits(high), depth + 1);
        self.expression(scope, Type::Bits(width - high), depth + 1);
    }

    /// A call of a function that returns the type, if there is one for this scope.
    fn call_for_value(&mut self, scope: &Scope, kind: Type, depth: usize) -> bool {
        let any = self.slips();
        let candidates = self.callees(scope, |signature| any || signature.returns() == Some(kind));
        if candidates.is_empty() || (scope.in_state && !any) {
            return false;
        }
        let callee = self.random.choose(&candidates);
        self.tag(13);
        self.call(scope, callee, depth);
        true
    }

    /// The wanted callables that can be called here: affordable, and with a place for each parameter written back.
    pub fn callees(&self, scope: &Scope, wanted: impl Fn(&Signature) -> bool) -> Vec<usize> {
        let left = self.allowance.saturating_sub(self.ceiling);
        let has_place = |parameter: &Parameter| {
            !parameter.direction.writes() || !scope.writable_places(&self.declared, parameter.kind).is_empty()
        };
        let good = |number: &usize| {
            let signature = &self.declared.callables[*number];
            wanted(signature) && signature.ceiling < left && signature.parameters.iter().all(has_place)
        };
        (0..scope.reach).filter(good).collect()
    }

    /// Callable and arguments of a call; a place is often an argument twice.
    pub fn call(&mut self, scope: &Scope, callee: usize, depth: usize) {
        let parameters = self.declared.callables[callee].parameters.clone();
        self.ceiling += self.declared.callables[callee].ceiling;
        self.draft.push_name(callee, scope.reach);
        let count = if self.slips() { parameters.len() ^ 1 } else { parameters.len() };
        self.draft.push(count as u64, 0, 8);
        let mut used: Vec<Place> = Vec::new();
        for index in 0..count {
            match parameters.get(index) {
                Some(parameter) if parameter.direction.writes() && !self.slips() => {
                    used.push(self.place_argument(scope, parameter.kind, &used));
                }
                parameter => {
                    let kind = parameter.map_or(Type::Bool, |parameter| parameter.kind);
                    self.expression(scope, kind, depth + 1);
                }
            }
        }
    }

    /// An argument that is a writable place, if there is one.
    fn place_argument(&mut self, scope: &Scope, kind: Type, used: &[Place]) -> Place {
        let place = self.writable_argument(scope, kind, used);
        let start = self.draft.len();
        self.ceiling += 1;
        self.place(scope, place, 0, 13);
        self.draft.close(Sort::Expression, start);
        place
    }

    fn writable_argument(&mut self, scope: &Scope, kind: Type, used: &[Place]) -> Place {
        let places = scope.writable_places(&self.declared, kind);
        let again: Vec<Place> = places.iter().copied().filter(|place| used.contains(place)).collect();
        if again.is_empty() || self.random.chance(50) {
            self.random.choose(&places)
        } else {
            self.random.choose(&again)
        }
    }

    /// A statement that may stand here.
    pub fn statement(&mut self, scope: &Scope, depth: usize) {
        let start = self.draft.len();
        self.ceiling += 1;
        if !self.has_room(depth) {
            self.assign(scope, depth);
        } else if scope.in_state {
            self.state_statement(scope, depth);
        } else if self.draft.has_parser() && self.slips() {
            self.extract_or_verify(scope, depth);
        } else if self.random.chance(self.plan.repeats) {
            self.repeat(scope, depth);
        } else {
            self.any_statement(scope, depth);
        }
        self.draft.close(Sort::Statement, start);
    }

    fn any_statement(&mut self, scope: &Scope, depth: usize) {
        let Statements { empty, assign, choice, block, call, apply, header, ending } = self.plan.statements;
        match self.random.by_share(&[empty, assign, choice, block, call, apply, header, ending]) {
            0 => self.statement_tag(0),
            1 => self.assign(scope, depth),
            2 => self.choice(scope, depth),
            3 => self.block(scope, depth),
            4 => self.call_statement(scope, depth),
            5 => self.apply(scope, depth),
            6 => self.set_header(scope, depth),
            _ => self.ending(scope, depth),
        }
    }

    pub fn statement_tag(&mut self, tag: u64) {
        self.draft.push(tag, 0, self.draft.last_statement_tag());
    }

    pub fn assign(&mut self, scope: &Scope, depth: usize) {
        let slip = self.slips();
        let targets = scope.targets(&self.declared, slip);
        if targets.is_empty() {
            return self.statement_tag(0);
        }
        let (place, kind) = self.random.choose(&targets);
        self.statement_tag(1);
        self.place(scope, place, 2, 5);
        self.expression(scope, kind, depth + 1);
    }

    pub fn choice(&mut self, scope: &Scope, depth: usize) {
        self.statement_tag(2);
        self.expression(scope, Type::Bool, depth + 1);
        self.statement(scope, depth + 1);
        self.statement(scope, depth + 1);
    }

    pub fn block(&mut self, scope: &Scope, depth: usize) {
        let count = self.random.between(0, 5);
        self.statement_tag(3);
        self.draft.push(count, 0, 64);
        for _ in 0..count {
            self.statement(scope, depth + 1);
        }
    }

    fn may_call(scope: &Scope, signature: &Signature) -> bool {
        !scope.in_function() || signature.kind != CallableKind::Action
    }

    fn call_statement(&mut self, scope: &Scope, depth: usize) {
        let any = self.slips();
        let candidates = self.callees(scope, |signature| any || Self::may_call(scope, signature));
        if candidates.is_empty() {
            return self.block(scope, depth);
        }
        let callee = self.random.choose(&candidates);
        self.statement_tag(4);
        self.call(scope, callee, depth);
    }

    /// A block of calls of the callable with the largest ceiling, as many as can be afforded.
    fn repeat(&mut self, scope: &Scope, depth: usize) {
        let candidates = self.callees(scope, |signature| Self::may_call(scope, signature));
        let Some(callee) = candidates.into_iter().max_by_key(|&number| self.declared.callables[number].ceiling) else {
            return self.block(scope, depth);
        };
        let each = self.declared.callables[callee].ceiling + 16;
        let affordable = self.allowance.saturating_sub(self.ceiling) / each;
        let count = self.random.between(0, affordable.min(24));
        self.statement_tag(3);
        self.draft.push(count, 0, 64);
        for _ in 0..count {
            let start = self.draft.len();
            self.ceiling += 1;
            self.statement_tag(4);
            self.call(scope, callee, depth + 1);
            self.draft.close(Sort::Statement, start);
        }
    }

    fn apply(&mut self, scope: &Scope, depth: usize) {
        if self.declared.tables.is_empty() || (scope.holder.is_some() && !self.slips()) {
            return self.assign(scope, depth);
        }
        let table = self.random.index(self.declared.tables.len());
        let DeclaredTable { keys, actions } = &self.declared.tables[table];
        let largest = actions.iter().map(|&action| self.declared.callables[action].ceiling).max().unwrap_or(0);
        self.ceiling += largest + 100 * keys.len() as u64;
        self.statement_tag(5);
        self.draft.push_name(table, self.declared.tables.len());
    }

    pub fn set_header(&mut self, scope: &Scope, depth: usize) {
        let Some(header) = self.header(scope) else { return self.assign(scope, depth) };
        let tag = self.random.between(9, 10);
        self.statement_tag(tag);
        self.draft.push_name(header, self.declared.globals.len());
    }

    /// A statement that ends its body or the run.
    fn ending(&mut self, scope: &Scope, depth: usize) {
        let turned_round = self.slips();
        let returned = match scope.holder {
            Some(CallableKind::Function(returned)) => Some(returned),
            _ => None,
        };
        match returned {
            Some(returned) if !turned_round => {
                self.statement_tag(6);
                self.expression(scope, returned, depth + 1);
            }
            None if turned_round => {
                self.statement_tag(6);
                self.expression(scope, Type::Bool, depth + 1);
            }
            _ => {
                let tag = self.random.between(7, 8);
                self.statement_tag(tag);
            }
        }
    }

    /// A statement of a function that returns on each path.
    pub fn returning_statement(&mut self, scope: &Scope, returned: Type, depth: usize) {
        let start = self.draft.len();
        self.ceiling += 1;
        match self.random.between(0, 9) {
            0..=4 if self.has_room(depth) => self.returning_block(scope, returned, depth),
            5 | 6 if self.has_room(depth) => {
                self.statement_tag(2);
                self.expression(scope, Type::Bool, depth + 1);
                self.returning_statement(scope, returned, depth + 1);
                self.returning_statement(scope, returned, depth + 1);
            }
            _ => {
                self.statement_tag(6);
                self.expression(scope, returned, depth + 1);
            }
        }
        self.draft.close(Sort::Statement, start);
    }

    fn returning_block(&mut self, scope: &Scope, returned: Type, depth: usize) {
        let before = self.random.between(0, 3);
        let after = u64::from(self.random.chance(20));
        self.statement_tag(3);
        self.draft.push(before + 1 + after, 0, 64);
        for _ in 0..before {
            self.statement(scope, depth + 1);
        }
        self.returning_statement(scope, returned, depth + 1);
        for _ in 0..after {
            self.statement(scope, depth + 1);
        }
    }
}
