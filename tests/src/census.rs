//! What constructs a program is made of, by name.

use crate::tree::*;
use std::collections::BTreeSet;

/// The names of all constructs that a program of a version can be made of.
pub fn all(version: u64) -> BTreeSet<String> {
    let mut groups = vec![("expression", 13), ("operator", 13), ("direction", 3), ("key kind", 2)];
    if version < FIRST_WITH_PARSER {
        groups.push(("statement", 10));
    } else {
        groups.extend([("statement", 12), ("transition", 4)]);
    }
    groups.iter().flat_map(|&(group, last)| (0..=last).map(move |number| format!("{group} {number}"))).collect()
}

/// The names of the constructs that this program is made of.
pub fn of(program: &Program) -> BTreeSet<String> {
    let mut census = Census { seen: BTreeSet::new() };
    for callable in &program.callables {
        for parameter in &callable.parameters {
            census.note("direction", parameter.direction as usize);
        }
        census.statement(&callable.body);
    }
    for key in program.tables.iter().flat_map(|table| &table.keys) {
        census.note("key kind", key.kind as usize);
        census.expression(&key.expression);
    }
    for state in &program.states {
        census.statement(&state.statement);
        census.transition(&state.transition);
    }
    census.statement(&program.apply_body);
    census.seen
}

struct Census {
    seen: BTreeSet<String>,
}

impl Census {
    fn note(&mut self, group: &str, number: usize) {
        self.seen.insert(format!("{group} {number}"));
    }

    fn expression(&mut self, expression: &Expression) {
        use ExpressionForm::*;
        let (tag, operands): (usize, Vec<&Expression>) = match &expression.form {
            Bool(_) => (0, vec![]),
            Bits { .. } => (1, vec![]),
            Local(_) => (2, vec![]),
            Parameter(_) => (3, vec![]),
            Global(_) => (4, vec![]),
            Field { .. } => (5, vec![]),
            Valid(_) => (6, vec![]),
            Not(operand) => (7, vec![operand]),
            Complement(operand) => (8, vec![operand]),
            Binary { operator, left, right } => {
                self.note("operator", *operator as usize);
                (9, vec![left, right])
            }
            Cast { operand, .. } => (10, vec![operand]),
            Slice { operand, .. } => (11, vec![operand]),
            Concatenation(left, right) => (12, vec![left, right]),
            Call(call) => (13, call.arguments.iter().collect()),
        };
        self.note("expression", tag);
        operands.into_iter().for_each(|operand| self.expression(operand));
    }

    fn transition(&mut self, transition: &Transition) {
        let tag = match transition {
            Transition::None => 0,
            Transition::Accept => 1,
            Transition::Reject(_) => 2,
            Transition::Next(_) => 3,
            Transition::Select { expression, .. } => {
                self.expression(expression);
                4
            }
        };
        self.note("transition", tag);
    }

    fn statement(&mut self, statement: &Statement) {
        use StatementForm::*;
        let tag = match &statement.form {
            Empty => 0,
            Assign { target, value } => {
                self.expression(target);
                self.expression(value);
                1
            }
            If { condition, then_branch, else_branch } => {
                self.expression(condition);
                self.statement(then_branch);
                self.statement(else_branch);
                2
            }
            Block(members) => {
                members.iter().for_each(|member| self.statement(member));
                3
            }
            Call(call) => {
                call.arguments.iter().for_each(|argument| self.expression(argument));
                4
            }
            Apply(_) => 5,
            ReturnValue(value) => {
                self.expression(value);
                6
            }
            Return => 7,
            Exit => 8,
            SetValid(_) => 9,
            SetInvalid(_) => 10,
            Extract(_) => 11,
            Verify { condition, .. } => {
                self.expression(condition);
                12
            }
        };
        self.note("statement", tag);
    }
}
