//! The parser's states, from text to numbers.

use super::names::declare;
use super::tags::transition::*;
use super::tokens::Token;
use super::{Maker, Read};
use crate::names::Sort;
use crate::source::Fault;
use second::tree::FIRST_WITH_PARSER;

/// What stands behind `transition` and is no state.
const NO_STATES: [&str; 3] = ["accept", "reject", "select"];

impl Maker<'_> {
    /// The states, if there are some; then the file is of a version that has them.
    pub fn states(&mut self) -> Read<()> {
        if !self.is_state() {
            return Ok(());
        }
        self.items[0].number = FIRST_WITH_PARSER;
        self.list(Self::state)
    }

    /// Whether a state begins here.
    pub fn is_state(&self) -> bool {
        self.text.token() == Token::Word("state") && self.text.ahead(2) == Token::Symbol("{")
    }

    fn state(&mut self) -> Read<bool> {
        if !self.is_state() {
            return Ok(false);
        }
        self.text.advance();
        let at = self.text.at();
        let name = self.text.name("a state's name")?;
        if NO_STATES.contains(&name) {
            return Err(Fault::new(at, format!("'{name}' names no state")));
        }
        declare(&mut self.names.states, name, at)?;
        self.text.expect("{")?;
        self.body_up_to(|maker| maker.text.token() == Token::Symbol("}") || maker.is_transition())?;
        self.transition()?;
        self.text.expect("}").map(|()| true)
    }

    /// Whether a transition begins here. A statement that begins with such a name has no other word behind it.
    fn is_transition(&self) -> bool {
        self.text.token() == Token::Word("transition") && matches!(self.text.ahead(1), Token::Word(_))
    }

    fn transition(&mut self) -> Read<()> {
        let at = self.text.at();
        if !self.text.takes_word("transition") {
            self.push(NONE, at);
            return Ok(());
        }
        let next_at = self.text.at();
        match self.text.name("a state")? {
            "accept" => self.push(ACCEPT, at),
            "reject" => {
                self.push(REJECT, at);
                self.text.expect("(")?;
                self.error()?;
                self.text.expect(")")?;
            }
            "select" => return self.select(at),
            next => {
                self.push(NEXT, at);
                self.push_name(Sort::State, next, next_at);
            }
        }
        self.text.semicolon()
    }

    /// An error's number.
    pub fn error(&mut self) -> Read<()> {
        let at = self.text.at();
        let error = self.text.number("an error's number")?;
        self.push(error, at);
        Ok(())
    }

    fn select(&mut self, at: usize) -> Read<()> {
        self.push(SELECT, at);
        self.text.expect("(")?;
        self.expression()?;
        self.text.expect(")")?;
        self.text.expect("{")?;
        self.list(Self::pair)
    }

    fn pair(&mut self) -> Read<bool> {
        if self.text.takes("}") {
            return Ok(false);
        }
        self.plain_value()?;
        self.text.expect(":")?;
        let at = self.text.at();
        let next = self.text.name("a state")?;
        self.push_name(Sort::State, next, at);
        self.text.semicolon().map(|()| true)
    }
}
