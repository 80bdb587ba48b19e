//! Statements, from text to numbers.

use super::tags::statement::*;
use super::tokens::Token;
use super::{Maker, Read};
use crate::names::Sort;

impl<'a> Maker<'a> {
    pub fn statement(&mut self) -> Read<()> {
        self.deeper(Self::any_statement)
    }

    fn any_statement(&mut self) -> Read<()> {
        let at = self.text.at();
        match self.text.token() {
            Token::Symbol(";") => {
                self.push(EMPTY, at);
                self.text.semicolon()
            }
            Token::Symbol("{") => {
                self.push(BLOCK, at);
                self.block()
            }
            Token::Word("if") => self.choice(),
            Token::Word("return") => self.ending(),
            Token::Word("exit") => {
                self.text.advance();
                self.push(EXIT, at);
                self.text.semicolon()
            }
            Token::Word("bit" | "bool") => self.text.fault("locals stand at the head of an action or a function"),
            _ => self.named_statement(),
        }
    }

    /// The members of a block, behind its tag.
    fn block(&mut self) -> Read<()> {
        self.text.expect("{")?;
        self.list(|maker| {
            if maker.text.takes("}") {
                return Ok(false);
            }
            maker.statement().map(|()| true)
        })
    }

    /// An if; one without else has an empty statement there.
    fn choice(&mut self) -> Read<()> {
        let at = self.text.at();
        self.text.expect_word("if")?;
        self.push(IF, at);
        self.text.expect("(")?;
        self.expression()?;
        self.text.expect(")")?;
        self.statement()?;
        if self.text.takes_word("else") {
            self.statement()
        } else {
            self.push(EMPTY, at);
            Ok(())
        }
    }

    fn ending(&mut self) -> Read<()> {
        let at = self.text.at();
        self.text.expect_word("return")?;
        if self.text.takes(";") {
            self.push(RETURN, at);
            return Ok(());
        }
        self.push(RETURN_VALUE, at);
        self.expression()?;
        self.text.semicolon()
    }

    /// A statement that begins with a name: a verify, a call, a method or an assignment.
    fn named_statement(&mut self) -> Read<()> {
        let at = self.text.at();
        let name = self.text.name("a statement")?;
        if name == "verify" && self.is_verify() {
            self.verify(at)?;
        } else if self.text.token() == Token::Symbol("(") {
            self.push(CALL, at);
            self.call(name, at)?;
        } else if self.is_method("apply") {
            self.method()?;
            self.push(APPLY, at);
            self.push_name(Sort::Table, name, at);
        } else if name == "packet" && self.is_method("extract") {
            self.extract(at)?;
        } else if self.is_method("setValid") {
            self.set(name, SET_VALID, at)?;
        } else if self.is_method("setInvalid") {
            self.set(name, SET_INVALID, at)?;
        } else {
            self.push(ASSIGN, at);
            self.place(name, at)?;
            self.text.expect("=")?;
            self.expression()?;
        }
        self.text.semicolon()
    }

    /// Whether brackets follow that end in a comma and a plain number, which is no argument of a call.
    fn is_verify(&self) -> bool {
        let mut open = 0;
        for ahead in 0.. {
            match self.text.ahead(ahead) {
                Token::Symbol("(") => open += 1,
                Token::Symbol(")") if open == 1 => {
                    let last = |back: usize| self.text.ahead(ahead.saturating_sub(back));
                    return last(2) == Token::Symbol(",") && matches!(last(1), Token::Number(_));
                }
                Token::Symbol(")") => open -= 1,
                Token::End => return false,
                _ if open == 0 => return false,
                _ => {}
            }
        }
        false
    }

    /// A condition and an error, behind `verify`.
    fn verify(&mut self, at: usize) -> Read<()> {
        self.push(VERIFY, at);
        self.text.expect("(")?;
        self.expression()?;
        self.text.expect(",")?;
        self.error()?;
        self.text.expect(")")
    }

    /// A dot, the method and its header, behind `packet`.
    fn extract(&mut self, at: usize) -> Read<()> {
        self.text.expect(".")?;
        self.text.expect_word("extract")?;
        self.text.expect("(")?;
        let global_at = self.text.at();
        let name = self.text.name("a global")?;
        let global = self.names.global(name, global_at)?;
        self.push(EXTRACT, at);
        self.push(global, global_at);
        self.text.expect(")")
    }

    fn set(&mut self, name: &'a str, tag: u64, at: usize) -> Read<()> {
        self.method()?;
        let global = self.names.global(name, at)?;
        self.push(tag, at);
        self.push(global, at);
        Ok(())
    }
}
