//! The parser's states as text.

use super::{Part, Writer};
use crate::names::Sort;
use second::tree::*;

impl Writer<'_> {
    pub fn states(&mut self) {
        self.in_state = true;
        for (number, state) in self.program.states.iter().enumerate() {
            self.page.new_section();
            self.page.write(&format!("state {} ", Sort::State.name(number as u64)));
            self.page.open();
            self.members(&state.statement);
            self.transition(&state.transition);
            self.page.close();
        }
        self.in_state = false;
    }

    /// A state without a transition says none.
    fn transition(&mut self, transition: &Transition) {
        if matches!(transition, Transition::None) {
            return;
        }
        self.page.new_line();
        self.page.write("transition ");
        match transition {
            Transition::None => {}
            Transition::Accept => self.page.write("accept;"),
            Transition::Reject(error) => self.page.write(&format!("reject({error});")),
            Transition::Next(next) => {
                self.name(Sort::State, *next);
                self.page.write(";");
            }
            Transition::Select { expression, pairs } => self.select(expression, pairs),
        }
    }

    fn select(&mut self, expression: &Expression, pairs: &[Pair]) {
        self.page.write("select(");
        let start = self.page.here();
        self.expression(expression);
        self.page.mark(expression.place, Part::Selected, start);
        self.page.write(") ");
        self.page.open();
        for pair in pairs {
            self.page.new_line();
            self.page.write_marked(&pair.value.value.to_string(), pair.value.place, Part::SelectValue);
            self.page.write(": ");
            self.name(Sort::State, pair.state);
            self.page.write(";");
        }
        self.page.close();
    }
}
