//! Expressions, from text to numbers. A tag stands before its operands, but behind the first one's text: then it is put
//! before the numbers that are there already.

use super::tags::expression::*;
use super::tokens::Token;
use super::{too_deep, Maker, Read};
use crate::names::Sort;
use crate::operators;
use second::shape::DEEPEST;

/// What stands between two operands: how tightly it binds, and its numbers.
struct Infix {
    strength: usize,
    numbers: Vec<u64>,
}

impl<'a> Maker<'a> {
    /// An expression; how high its tree is.
    pub fn expression(&mut self) -> Read<usize> {
        self.deeper(|maker| maker.binary(0))
    }

    /// An expression of operators that bind at least so tightly.
    fn binary(&mut self, least: usize) -> Read<usize> {
        let start = self.items.len();
        let mut height = self.unary()?;
        while let Some(infix) = self.infix()?.filter(|infix| infix.strength >= least) {
            let at = self.text.at();
            self.text.advance();
            self.insert(start, &infix.numbers, at);
            let right = self.binary(infix.strength + 1)?;
            height = self.higher(height.max(right))?;
        }
        Ok(height)
    }

    fn infix(&self) -> Read<Option<Infix>> {
        let symbol = match self.text.token() {
            Token::Symbol(">" | ">=") => return self.text.fault("there is < and <=; exchange the operands"),
            Token::Symbol("/") => return self.text.fault("there is no division"),
            Token::Symbol(symbol) => symbol,
            _ => return Ok(None),
        };
        let numbers = operators::number(symbol).map_or(vec![CONCATENATION], |number| vec![BINARY, number]);
        Ok(operators::strength(symbol).map(|strength| Infix { strength, numbers }))
    }

    /// The height of a tree one above; a long row of operators makes a high one without nesting in the text.
    fn higher(&self, height: usize) -> Read<usize> {
        if height < DEEPEST {
            Ok(height + 1)
        } else {
            self.text.fault(too_deep())
        }
    }

    fn unary(&mut self) -> Read<usize> {
        let at = self.text.at();
        match (self.text.token(), self.text.ahead(1)) {
            (Token::Symbol("!"), _) => {
                self.text.advance();
                self.push(NOT, at);
            }
            (Token::Symbol("~"), _) => {
                self.text.advance();
                self.push(COMPLEMENT, at);
            }
            (Token::Symbol("("), Token::Word("bit")) => {
                self.text.advance();
                self.push(CAST, at);
                self.text.expect_word("bit")?;
                let width = self.width()?;
                self.push(width, at);
                self.text.expect(")")?;
            }
            (Token::Symbol("("), Token::Word("bool")) if self.text.ahead(2) == Token::Symbol(")") => {
                return self.text.fault("a cast goes to bits; a comparison gives a bool");
            }
            _ => return self.postfix(),
        }
        let height = self.deeper(Self::unary)?;
        self.higher(height)
    }

    /// An operand and its slices.
    fn postfix(&mut self) -> Read<usize> {
        let start = self.items.len();
        let mut height = self.primary()?;
        loop {
            let at = self.text.at();
            if !self.text.takes("[") {
                return Ok(height);
            }
            let high = self.text.number("a slice's high bound")?;
            self.text.expect(":")?;
            let low = self.text.number("a slice's low bound")?;
            self.text.expect("]")?;
            self.insert(start, &[SLICE, high, low], at);
            height = self.higher(height)?;
        }
    }

    fn primary(&mut self) -> Read<usize> {
        let at = self.text.at();
        match self.text.token() {
            Token::Literal(width, value) => {
                self.text.advance();
                [BITS, width, value].into_iter().for_each(|number| self.push(number, at));
                Ok(1)
            }
            Token::Word(word @ ("true" | "false")) => {
                self.text.advance();
                self.push(BOOL, at);
                self.push(u64::from(word == "true"), at);
                Ok(1)
            }
            Token::Word("bool") => self.bool_literal(),
            Token::Symbol("(") => {
                self.text.advance();
                let height = self.expression()?;
                self.text.expect(")")?;
                Ok(height)
            }
            Token::Number(number) => self.text.fault(format!("a literal says its width, as 8w{number}")),
            _ => self.named(),
        }
    }

    /// A bool literal by its number.
    fn bool_literal(&mut self) -> Read<usize> {
        let at = self.text.at();
        self.text.advance();
        self.text.expect("(")?;
        self.push(BOOL, at);
        let number = self.text.number("a bool literal's number")?;
        self.push(number, at);
        self.text.expect(")")?;
        Ok(1)
    }

    /// A call, a field, a validity or a variable.
    fn named(&mut self) -> Read<usize> {
        let at = self.text.at();
        let name = self.text.name("an expression")?;
        match self.text.token() {
            Token::Symbol("(") => {
                self.push(CALL, at);
                return self.call(name, at);
            }
            Token::Symbol(".") if self.is_method("isValid") => {
                self.method()?;
                self.push(VALID, at);
                let global = self.names.global(name, at)?;
                self.push(global, at);
            }
            _ => self.place(name, at)?,
        }
        Ok(1)
    }

    /// A local, a parameter, a global or a field, whose first name is read already.
    pub fn place(&mut self, name: &'a str, at: usize) -> Read<()> {
        if !self.text.takes(".") {
            let (tag, number) = self.names.variable(name, at)?;
            self.push(tag, at);
            self.push(number, at);
            return Ok(());
        }
        let global = self.names.global(name, at)?;
        let field_at = self.text.at();
        let field = self.text.name("a field")?;
        let field = self.names.field(global, field, field_at)?;
        self.push(FIELD, at);
        self.push(global, at);
        self.push(field, field_at);
        Ok(())
    }

    /// Whether a dot, this method and an open bracket follow.
    pub fn is_method(&self, method: &str) -> bool {
        self.text.ahead(1) == Token::Word(method) && self.text.ahead(2) == Token::Symbol("(")
    }

    /// A dot, a method and its empty brackets.
    pub fn method(&mut self) -> Read<()> {
        self.text.expect(".")?;
        self.text.word("a method")?;
        self.text.expect("(")?;
        self.text.expect(")")
    }

    /// A callable, whose name is read already, and its arguments; how high the call's tree is.
    pub fn call(&mut self, name: &'a str, at: usize) -> Read<usize> {
        self.push_name(Sort::Function, name, at);
        let mut highest = 0;
        self.bracketed(|maker| {
            highest = maker.expression()?.max(highest);
            Ok(())
        })?;
        self.higher(highest)
    }
}
