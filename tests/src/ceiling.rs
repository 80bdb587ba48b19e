//! The ceiling, the most steps that a run can take: refusal 9.

use crate::answer::Refusal;
use crate::numbers::Number;
use crate::tree::*;

pub const MOST_STEPS: u64 = 1_000_000;

/// The program's ceiling, or 9. Exact up to `MOST_STEPS`; each body is counted once.
pub fn judge(program: &Program) -> Result<u64, Refusal> {
    let ceiling = of(program);
    if ceiling > MOST_STEPS {
        Err(Refusal::at(9, 0))
    } else {
        Ok(ceiling)
    }
}

/// The ceiling of the parser's dearest path and the apply body in a well formed program; a sum too large for a word stays
/// at the largest word.
pub fn of(program: &Program) -> u64 {
    let mut bodies = Vec::new();
    for callable in &program.callables {
        let ceiling = Counter { program, bodies: &bodies }.statement(&callable.body);
        bodies.push(ceiling);
    }
    let counter = Counter { program, bodies: &bodies };
    counter.parser().saturating_add(counter.statement(&program.apply_body))
}

struct Counter<'a> {
    program: &'a Program,
    /// The ceilings of the callables' bodies, those below the body at hand.
    bodies: &'a [u64],
}

impl Counter<'_> {
    /// The ceiling from the first state on. A state leads to later ones only, so the last one is counted first.
    fn parser(&self) -> u64 {
        let states = &self.program.states;
        let mut ceilings = vec![0; states.len()];
        for (number, state) in states.iter().enumerate().rev() {
            ceilings[number] = self.state(state, &ceilings);
        }
        ceilings.first().copied().unwrap_or(0)
    }

    /// A state's ceiling, where those of the states that it leads to are known.
    fn state(&self, state: &State, ceilings: &[u64]) -> u64 {
        let ceiling = |next: &Number| ceilings[next.value as usize];
        let followed = match &state.transition {
            Transition::None | Transition::Accept | Transition::Reject(_) => 0,
            Transition::Next(next) => ceiling(next),
            Transition::Select { expression, pairs } => {
                let dearest = pairs.iter().map(|pair| ceiling(&pair.state)).max().unwrap_or(0);
                self.expression(expression).saturating_add(dearest)
            }
        };
        self.statement(&state.statement).saturating_add(followed).saturating_add(1)
    }

    fn expression(&self, expression: &Expression) -> u64 {
        use ExpressionForm::*;
        let operands = match &expression.form {
            Bool(_) | Bits { .. } | Local(_) | Parameter(_) | Global(_) | Field { .. } | Valid(_) => 0,
            Not(operand) | Complement(operand) => self.expression(operand),
            Cast { operand, .. } | Slice { operand, .. } => self.expression(operand),
            Binary { left, right, .. } => self.expression(left).saturating_add(self.expression(right)),
            Concatenation(left, right) => self.expression(left).saturating_add(self.expression(right)),
            Call(call) => self.call(call),
        };
        operands.saturating_add(1)
    }

    fn call(&self, call: &Call) -> u64 {
        let arguments = sum(call.arguments.iter().map(|argument| self.expression(argument)));
        arguments.saturating_add(self.bodies[call.callable.value as usize])
    }

    fn statement(&self, statement: &Statement) -> u64 {
        use StatementForm::*;
        let parts = match &statement.form {
            Empty | Return | Exit | SetValid(_) | SetInvalid(_) | Extract(_) => 0,
            Assign { value, .. } => self.expression(value),
            If { condition, then_branch, else_branch } => {
                let larger = self.statement(then_branch).max(self.statement(else_branch));
                self.expression(condition).saturating_add(larger)
            }
            Block(members) => sum(members.iter().map(|member| self.statement(member))),
            Call(call) => self.call(call),
            Apply(table) => self.apply(&self.program.tables[table.value as usize]),
            ReturnValue(value) => self.expression(value),
            Verify { condition, .. } => self.expression(condition),
        };
        parts.saturating_add(1)
    }

    fn apply(&self, table: &Table) -> u64 {
        let keys = sum(table.keys.iter().map(|key| self.expression(&key.expression)));
        let largest = table.actions.iter().map(|action| self.bodies[action.value as usize]).max();
        keys.saturating_add(largest.unwrap_or(0))
    }
}

fn sum(parts: impl Iterator<Item = u64>) -> u64 {
    parts.fold(0, u64::saturating_add)
}
