//! Statements as text.

use super::{Part, Writer};
use crate::names::Sort;
use second::tree::*;

impl Writer<'_> {
    /// A statement, on the line that is begun.
    pub fn statement(&mut self, statement: &Statement) {
        self.statement_before(statement, false);
    }

    /// A statement that an else may follow. Then each if in it says its own else, or it would take that one.
    fn statement_before(&mut self, statement: &Statement, else_follows: bool) {
        let start = self.page.here();
        match &statement.form {
            StatementForm::Block(members) => self.block(members),
            StatementForm::If { condition, then_branch, else_branch } => {
                self.page.write("if (");
                self.expression(condition);
                self.page.write(")");
                self.page.mark(statement.place, Part::If, start);
                self.branches(then_branch, else_branch, else_follows);
            }
            single => {
                self.single(single);
                if let Some(part) = self.part(single) {
                    self.page.mark(statement.place, part, start);
                }
                self.page.write(";");
            }
        }
    }

    /// A statement that holds no other one, without its semicolon.
    fn single(&mut self, form: &StatementForm) {
        use StatementForm::*;
        match form {
            Empty | Block(_) | If { .. } => {}
            Assign { target, value } => {
                self.expression(target);
                self.page.write(" = ");
                self.expression(value);
            }
            Call(call) => self.call(call),
            Apply(table) => {
                self.name(Sort::Table, *table);
                self.page.write(".apply()");
            }
            ReturnValue(value) => {
                self.page.write("return ");
                self.expression(value);
            }
            Return => self.page.write("return"),
            Exit => self.page.write("exit"),
            SetValid(global) => self.method(*global, "setValid()"),
            SetInvalid(global) => self.method(*global, "setInvalid()"),
            Extract(global) => {
                self.page.write("packet.extract(");
                self.name(Sort::Global, *global);
                self.page.write(")");
            }
            Verify { condition, error } => {
                self.page.write("verify(");
                self.expression(condition);
                self.page.write(&format!(", {error})"));
            }
        }
    }

    /// What a statement's tag is here, where a refusal may be charged to it.
    fn part(&self, form: &StatementForm) -> Option<Part> {
        match part(form) {
            Some(Part::Call) if self.in_state => Some(Part::CallInState),
            Some(Part::Apply | Part::ReturnValue | Part::Return | Part::Exit) if self.in_state => {
                Some(Part::BarredInState)
            }
            part => part,
        }
    }

    fn block(&mut self, members: &[Statement]) {
        self.page.open();
        for member in members {
            self.page.new_line();
            self.statement(member);
        }
        self.page.close();
    }

    /// The branches of an if. An empty second one is left out where no else follows.
    fn branches(&mut self, then_branch: &Statement, else_branch: &Statement, else_follows: bool) {
        self.branch(then_branch, true);
        if matches!(else_branch.form, StatementForm::Empty) && !else_follows {
            return;
        }
        match then_branch.form {
            StatementForm::Block(_) => self.page.write(" "),
            _ => self.page.new_line(),
        }
        self.page.write("else");
        match else_branch.form {
            StatementForm::If { .. } => {
                self.page.write(" ");
                self.statement_before(else_branch, else_follows);
            }
            _ => self.branch(else_branch, else_follows),
        }
    }

    /// A block goes on the line, another statement on the next one.
    fn branch(&mut self, branch: &Statement, else_follows: bool) {
        match branch.form {
            StatementForm::Block(_) => {
                self.page.write(" ");
                self.statement(branch);
            }
            _ => {
                self.page.indent();
                self.statement_before(branch, else_follows);
                self.page.outdent();
            }
        }
    }
}

/// What a statement's tag is outside states.
fn part(form: &StatementForm) -> Option<Part> {
    use StatementForm::*;
    match form {
        Empty | Block(_) => None,
        Assign { .. } => Some(Part::Assign),
        If { .. } => Some(Part::If),
        Call(_) => Some(Part::Call),
        Apply(_) => Some(Part::Apply),
        ReturnValue(_) => Some(Part::ReturnValue),
        Return => Some(Part::Return),
        Exit => Some(Part::Exit),
        SetValid(_) | SetInvalid(_) => Some(Part::SetValid),
        Extract(_) => Some(Part::Extract),
        Verify { .. } => Some(Part::Verify),
    }
}
