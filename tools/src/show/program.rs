//! A program as text: header types, globals, callables, tables, the apply body. The states are written elsewhere.

use super::{plain_value, Part, Writer};
use crate::names::Sort;
use second::numbers::Number;
use second::tree::*;

impl Writer<'_> {
    pub fn program(&mut self) {
        let program = self.program;
        for (number, widths) in program.headers.iter().enumerate() {
            self.header(number, widths);
        }
        self.globals(&program.globals);
        for (number, callable) in program.callables.iter().enumerate() {
            self.callable(number, callable);
        }
        for (number, table) in program.tables.iter().enumerate() {
            self.table(number, table);
        }
        self.states();
        self.apply_body(&program.apply_body);
    }

    fn header(&mut self, number: usize, widths: &[u32]) {
        self.page.new_section();
        self.page.write(&format!("header {} ", Sort::Header.name(number as u64)));
        self.page.open();
        for (field, width) in widths.iter().enumerate() {
            self.page.new_line();
            self.page.write(&format!("bit<{width}> {};", Sort::Field.name(field as u64)));
        }
        self.page.close();
    }

    fn globals(&mut self, globals: &[Global]) {
        for (number, global) in globals.iter().enumerate() {
            if number == 0 {
                self.page.new_section();
            } else {
                self.page.new_line();
            }
            let kind = match global.kind {
                GlobalKind::Plain(kind) => type_text(kind),
                GlobalKind::Header(header) => Sort::Header.name(header as u64),
            };
            self.page.write_marked(&kind, global.place, Part::GlobalType);
            self.page.write(&format!(" {};", Sort::Global.name(number as u64)));
        }
    }

    fn callable(&mut self, number: usize, callable: &Callable) {
        self.page.new_section();
        let (kind, sort) = match callable.kind {
            CallableKind::Action => ("action".to_string(), Sort::Action),
            CallableKind::Function(returned) => (type_text(returned), Sort::Function),
        };
        let parameters: Vec<String> = callable.parameters.iter().enumerate().map(parameter).collect();
        let head = format!("{kind} {}({})", sort.name(number as u64), parameters.join(", "));
        self.page.write_marked(&head, callable.place, Part::Callable);
        self.page.write(" ");
        self.body(&callable.locals, &callable.body);
    }

    /// Locals and a body. The braces stand for a block, unless exactly one statement stands in them.
    fn body(&mut self, locals: &[Type], body: &Statement) {
        self.page.open();
        for (number, &local) in locals.iter().enumerate() {
            self.page.new_line();
            self.page.write(&format!("{} {};", type_text(local), Sort::Local.name(number as u64)));
        }
        self.members(body);
        self.page.close();
    }

    /// The statements that stand between a body's braces.
    pub fn members(&mut self, body: &Statement) {
        let members = match &body.form {
            StatementForm::Block(members) if members.len() != 1 => members.as_slice(),
            _ => std::slice::from_ref(body),
        };
        for member in members {
            self.page.new_line();
            self.statement(member);
        }
    }

    fn apply_body(&mut self, body: &Statement) {
        self.page.new_section();
        self.page.write_marked("apply", 0, Part::ApplyBody);
        self.page.write(" ");
        self.body(&[], body);
    }

    fn table(&mut self, number: usize, table: &Table) {
        self.page.new_section();
        self.page.write(&format!("table {} ", Sort::Table.name(number as u64)));
        self.page.open();
        self.page.new_line();
        self.keys(&table.keys);
        self.page.new_line();
        self.listed(&table.actions);
        self.page.new_line();
        self.default(table);
        self.page.close();
    }

    fn keys(&mut self, keys: &[Key]) {
        self.page.write("key = ");
        self.page.open();
        for key in keys {
            self.page.new_line();
            let start = self.page.here();
            self.expression(&key.expression);
            self.page.mark(key.expression.place, Part::Key, start);
            self.page.write(": ");
            self.page.write_marked(kind_text(key.kind), key.place, Part::KeyKind);
            self.page.write(";");
        }
        self.page.close();
    }

    fn listed(&mut self, actions: &[Number]) {
        self.page.write("actions = ");
        self.page.open();
        for &action in actions {
            self.page.new_line();
            let name = self.callable_sort(action).name(action.value);
            self.page.write_marked(&name, action.place, Part::Listed);
            self.page.write(";");
        }
        self.page.close();
    }

    fn default(&mut self, table: &Table) {
        self.page.write("default_action = ");
        let name = self.action_name(table, table.default);
        self.page.write_marked(&name, table.default.place, Part::Default);
        let start = self.page.here();
        let kinds = self.parameter_types(table, table.default);
        self.plain_arguments(&table.default_arguments, &kinds, Part::DefaultArgument);
        self.page.mark(table.default_count.place, Part::DefaultCount, start);
        self.page.write(";");
    }

    /// Numbers in brackets, with the types that they should have, where these are known.
    pub fn plain_arguments(&mut self, arguments: &[Number], kinds: &[Type], part: Part) {
        self.page.write("(");
        for (index, argument) in arguments.iter().enumerate() {
            self.page.comma_before(index);
            let value = plain_value(argument.value, kinds.get(index).copied());
            self.page.write_marked(&value, argument.place, part);
        }
        self.page.write(")");
    }

    /// A position in a table's list: the name that stands there, unless that stands further up too.
    pub fn action_name(&self, table: &Table, position: Number) -> String {
        let first = |action: u64| table.actions.iter().position(|listed| listed.value == action);
        match named(&table.actions, position.value) {
            Some(action) if first(action.value) == Some(position.value as usize) => {
                self.callable_sort(*action).name(action.value)
            }
            _ => format!("actions[{}]", position.value),
        }
    }

    /// The types of the parameters of the callable at a position of a table's list; none where there is no callable.
    pub fn parameter_types(&self, table: &Table, position: Number) -> Vec<Type> {
        named(&table.actions, position.value)
            .and_then(|action| named(&self.program.callables, action.value))
            .map_or(Vec::new(), |callable| callable.parameters.iter().map(|parameter| parameter.kind).collect())
    }
}

fn parameter((number, parameter): (usize, &Parameter)) -> String {
    let direction = match parameter.direction {
        Direction::None => "",
        Direction::In => "in ",
        Direction::Out => "out ",
        Direction::Inout => "inout ",
    };
    format!("{direction}{} {}", type_text(parameter.kind), Sort::Parameter.name(number as u64))
}

fn type_text(kind: Type) -> String {
    match kind {
        Type::Bool => "bool".to_string(),
        Type::Bits(width) => format!("bit<{width}>"),
    }
}

fn kind_text(kind: KeyKind) -> &'static str {
    match kind {
        KeyKind::Exact => "exact",
        KeyKind::Lpm => "lpm",
        KeyKind::Ternary => "ternary",
    }
}
