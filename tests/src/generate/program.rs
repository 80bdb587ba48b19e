//! A program: declarations, callables, tables and the apply body; well formed but for slips that its plan asks for.

use super::draft::{Draft, Sort};
use super::plan::Plan;
use super::random::Random;
use super::scope::*;
use crate::tree::*;
use crate::value::largest;

pub struct Builder<'r> {
    pub random: &'r mut Random,
    pub draft: Draft,
    pub declared: Declared,
    pub plan: Plan,
    /// The types that the program uses.
    kinds: Vec<Type>,
    /// How many bytes all extracts of the program take.
    pub extracted: usize,
    /// At least the ceiling of the body at hand so far.
    pub ceiling: u64,
    /// What it stays under.
    pub allowance: u64,
    /// The length of the draft at which the body at hand comes to its end.
    full: usize,
}

const WIDTHS: [u32; 18] = [1, 2, 3, 4, 4, 5, 6, 7, 7, 8, 8, 9, 16, 32, 33, 48, 63, 64];
/// How often, of a hundred, a rule of form that can be broken is.
const SLIP: u64 = 8;
const DEEP: usize = 29;

impl<'r> Builder<'r> {
    pub fn new(random: &'r mut Random, plan: Plan, version: u64) -> Builder<'r> {
        let mut kinds = vec![Type::Bool];
        for _ in 0..random.within(plan.widths) {
            kinds.push(Type::Bits(random.choose(&WIDTHS)));
        }
        let (draft, declared) = (Draft::new(version), Declared::default());
        Builder { random, draft, declared, plan, kinds, extracted: 0, ceiling: 0, allowance: 0, full: 0 }
    }

    /// The whole program.
    pub fn program(&mut self) {
        self.draft.push(self.draft.version, 1, self.draft.version);
        self.headers();
        self.globals();
        let callables = self.random.within(self.plan.callables);
        self.draft.push(callables, 0, 16);
        for number in 0..callables {
            self.callable(number as usize);
        }
        self.tables();
        if self.draft.has_parser() {
            self.states();
        }
        self.body_begins(self.plan.ceiling);
        self.apply_body();
    }

    /// Mostly a block, so that one thing follows another.
    fn apply_body(&mut self) {
        let scope = Scope::outside(self.declared.callables.len());
        let members = self.random.within(self.plan.members);
        self.members(&scope, members);
    }

    /// A block of so many statements, or a statement alone.
    pub fn members(&mut self, scope: &Scope, members: u64) {
        if members == 1 {
            return self.statement(scope, 1);
        }
        let start = self.draft.len();
        self.ceiling += 1;
        self.statement_tag(3);
        self.draft.push(members, 0, 64);
        for _ in 0..members {
            self.statement(scope, 2);
        }
        self.draft.close(Sort::Statement, start);
    }

    pub fn kind(&mut self) -> Type {
        self.random.choose(&self.kinds)
    }

    pub fn width(&mut self) -> u32 {
        match self.kind() {
            Type::Bits(width) => width,
            Type::Bool => self.random.choose(&WIDTHS),
        }
    }

    /// Whether a rule of form is not kept here.
    pub fn slips(&mut self) -> bool {
        let slips = self.plan.slips > 0 && self.random.chance(SLIP);
        self.plan.slips -= u64::from(slips);
        slips
    }

    /// Whether the body at hand has room for a construct with parts.
    pub fn has_room(&self, depth: usize) -> bool {
        depth < DEEP && self.draft.len() < self.full && self.ceiling < self.allowance
    }

    pub fn body_begins(&mut self, allowance: u64) {
        self.ceiling = 0;
        self.allowance = allowance;
        self.full = self.draft.len() + self.plan.body;
    }

    fn headers(&mut self) {
        let count = self.random.within(self.plan.headers);
        self.draft.push(count, 0, 8);
        for _ in 0..count {
            let fields = self.random.between(1, 4);
            let mut widths: Vec<u32> = (0..fields).map(|_| self.width()).collect();
            if self.draft.has_parser() && self.random.chance(85) {
                widths.extend(filler(&widths));
            }
            self.draft.push(widths.len() as u64, 1, 16);
            for &width in &widths {
                self.draft.push_free(u64::from(width), 1, 64);
            }
            self.declared.headers.push(widths);
        }
    }

    fn globals(&mut self) {
        let count = self.random.within(self.plan.globals);
        self.draft.push(count, 0, 32);
        for _ in 0..count {
            let headers = self.declared.headers.len();
            if headers > 0 && self.random.chance(40) {
                let header = self.random.index(headers);
                self.draft.push_free(128 + header as u64, 128, 127 + headers as u64);
                self.declared.globals.push(GlobalKind::Header(header));
            } else {
                let kind = self.push_kind();
                self.declared.globals.push(GlobalKind::Plain(kind));
            }
        }
    }

    fn push_kind(&mut self) -> Type {
        let kind = self.kind();
        self.draft.push_free(kind_number(kind), 0, 64);
        kind
    }

    fn callable(&mut self, number: usize) {
        let for_tables = self.random.chance(self.plan.table_actions);
        let kind = self.callable_kind(for_tables);
        let parameters = self.parameters(for_tables);
        let locals = self.random.within(self.plan.locals);
        self.draft.push(locals, 0, 8);
        let locals = (0..locals).map(|_| self.push_kind()).collect();
        let scope = Scope { reach: number, holder: Some(kind), in_state: false, parameters, locals };
        self.body_begins(self.plan.ceiling / 3);
        match kind {
            CallableKind::Function(returned) if !self.slips() => self.returning_statement(&scope, returned, 1),
            _ => self.statement(&scope, 1),
        }
        let Scope { parameters, .. } = scope;
        self.declared.callables.push(Signature { kind, parameters, ceiling: self.ceiling });
    }

    fn callable_kind(&mut self, for_tables: bool) -> CallableKind {
        let function = !for_tables && self.random.chance(50);
        self.draft.push(u64::from(function), 0, 1);
        if function {
            CallableKind::Function(self.push_kind())
        } else {
            CallableKind::Action
        }
    }

    fn parameters(&mut self, for_tables: bool) -> Vec<Parameter> {
        use Direction::*;
        let count = self.random.within(self.plan.parameters);
        self.draft.push(count, 0, 8);
        let mut parameters = Vec::new();
        for _ in 0..count {
            let direction = if for_tables { None } else { self.random.choose(&[None, In, Out, Out, Inout, Inout]) };
            self.draft.push_free(direction_number(direction), 0, 3);
            parameters.push(Parameter { direction, kind: self.push_kind() });
        }
        parameters
    }

    fn tables(&mut self) {
        let actions = self.table_actions();
        let count = if actions.is_empty() { 0 } else { self.random.within(self.plan.tables) };
        self.draft.push(count, 0, 8);
        for _ in 0..count {
            self.table(&actions);
        }
    }

    /// The callables that a table may list; after a slip all.
    fn table_actions(&mut self) -> Vec<usize> {
        let any = self.slips();
        let callables = &self.declared.callables;
        (0..callables.len()).filter(|&number| any || callables[number].is_for_tables()).collect()
    }

    fn table(&mut self, actions: &[usize]) {
        let keys = self.keys();
        let count = self.random.between(1, 3);
        self.draft.push(count, 1, 8);
        let listed: Vec<usize> = (0..count).map(|_| self.random.choose(actions)).collect();
        for &action in &listed {
            self.draft.push_name(action, self.declared.callables.len());
        }
        let default = self.random.index(listed.len());
        self.draft.push_name(default, listed.len());
        let parameters = self.declared.callables[listed[default]].parameters.clone();
        let count = if self.slips() { parameters.len() ^ 1 } else { parameters.len() };
        self.draft.push(count as u64, 0, 8);
        for index in 0..count {
            self.push_value(parameters.get(index).map_or(Type::Bool, |parameter| parameter.kind));
        }
        self.declared.tables.push(DeclaredTable { keys, actions: listed });
    }

    fn keys(&mut self) -> Vec<DeclaredKey> {
        let count = self.random.choose(&[1, 1, 1, 2, 2, 3, 4]);
        self.draft.push(count, 1, 4);
        let mut keys: Vec<DeclaredKey> = Vec::new();
        for _ in 0..count {
            let kind = self.random.choose(&[KeyKind::Exact, KeyKind::Lpm, KeyKind::Lpm, KeyKind::Ternary]);
            let second_lpm = kind == KeyKind::Lpm && keys.iter().any(|key| key.kind == KeyKind::Lpm);
            let kind = if second_lpm && !self.slips() { KeyKind::Exact } else { kind };
            self.draft.push(key_kind_number(kind), 0, 2);
            keys.push(self.key(kind));
        }
        keys
    }

    fn key(&mut self, kind: KeyKind) -> DeclaredKey {
        let scope = Scope::outside(self.declared.callables.len());
        let (width, reads) = self.bits_for_choice(&scope);
        DeclaredKey { kind, width, reads }
    }

    /// The expression of a key or a select, mostly a global or a field alone; its width, and what it reads then.
    pub fn bits_for_choice(&mut self, scope: &Scope) -> (u32, Option<Place>) {
        let places = scope.bits_places(&self.declared);
        let start = self.draft.len();
        if places.is_empty() || self.random.chance(self.plan.computed_keys) {
            let width = self.width();
            self.body_begins(200);
            self.full = start + 12;
            self.expression(scope, Type::Bits(width), 1);
            return (width, None);
        }
        let (place, width) = self.random.choose(&places);
        self.place(scope, place, 0, 13);
        self.draft.close(Sort::Expression, start);
        (width, Some(place))
    }

    /// A number that fits the type; after a slip the first one that does not.
    pub fn push_value(&mut self, kind: Type) {
        self.push_value_or(None, kind);
    }

    /// The same, with a choice of the number.
    pub fn push_value_or(&mut self, chosen: Option<u64>, kind: Type) {
        let most = largest_number(kind);
        let value = match chosen {
            _ if self.slips() => most.saturating_add(1),
            Some(chosen) => chosen,
            None => self.random.value(kind),
        };
        self.draft.push_free(value, 0, most);
    }
}

/// The width that is missing to whole bytes, if one is.
fn filler(widths: &[u32]) -> Option<u32> {
    match widths.iter().sum::<u32>() % 8 {
        0 => None,
        over => Some(8 - over),
    }
}

fn kind_number(kind: Type) -> u64 {
    match kind {
        Type::Bool => 0,
        Type::Bits(width) => u64::from(width),
    }
}

fn direction_number(direction: Direction) -> u64 {
    match direction {
        Direction::None => 0,
        Direction::In => 1,
        Direction::Out => 2,
        Direction::Inout => 3,
    }
}

fn key_kind_number(kind: KeyKind) -> u64 {
    match kind {
        KeyKind::Exact => 0,
        KeyKind::Lpm => 1,
        KeyKind::Ternary => 2,
    }
}

pub fn largest_number(kind: Type) -> u64 {
    match kind {
        Type::Bool => 1,
        Type::Bits(width) => largest(width),
    }
}
