//! Header types, globals, callables, tables and the apply body, from text to numbers. The states are read elsewhere.

use super::names::declare;
use super::tags::statement::BLOCK;
use super::tokens::Token;
use super::{Maker, Read};
use crate::source::Fault;

const MOST_HEADERS: u64 = 8;
const ORDER: &str =
    "in order: header types, globals, actions and functions, tables, states, apply, entries, store, packet";

impl<'a> Maker<'a> {
    pub fn program(&mut self) -> Read<()> {
        self.push(1, self.text.at());
        self.list(Self::header)?;
        self.list(Self::global)?;
        self.list(Self::callable)?;
        self.list(Self::table)?;
        self.states()?;
        if !self.text.takes_word("apply") {
            return self.text.expected(&format!("'apply' ({ORDER})"));
        }
        self.text.expect("{")?;
        self.body()?;
        self.resolve()
    }

    /// A name that is new to one of the lists.
    fn new_name(&mut self, what: &str, list: fn(&mut Self) -> &mut Vec<&'a str>) -> Read<()> {
        let at = self.text.at();
        let name = self.text.name(what)?;
        declare(list(self), name, at)
    }

    fn header(&mut self) -> Read<bool> {
        if !self.text.takes_word("header") {
            return Ok(false);
        }
        self.new_name("a header type's name", |maker| &mut maker.names.headers)?;
        self.names.fields.push(Vec::new());
        self.text.expect("{")?;
        self.list(Self::field).map(|()| true)
    }

    fn field(&mut self) -> Read<bool> {
        if self.text.takes("}") {
            return Ok(false);
        }
        let at = self.text.at();
        self.text.expect_word("bit")?;
        let width = self.width()?;
        self.push(width, at);
        let at = self.text.at();
        let name = self.text.name("a field's name")?;
        if let Some(fields) = self.names.fields.last_mut() {
            declare(fields, name, at)?;
        }
        self.text.semicolon().map(|()| true)
    }

    /// The width in a type, behind `bit`.
    pub fn width(&mut self) -> Read<u64> {
        self.text.expect("<")?;
        let at = self.text.at();
        let width = self.text.number("a width")?;
        self.text.expect(">")?;
        if (1..=64).contains(&width) {
            Ok(width)
        } else {
            Err(Fault::new(at, "a width is 1 to 64"))
        }
    }

    /// `bool` or `bit<W>`.
    fn plain_type(&mut self) -> Read<()> {
        let at = self.text.at();
        let number = if self.text.takes_word("bool") {
            0
        } else if self.text.takes_word("bit") {
            self.width()?
        } else {
            return self.text.expected("'bool' or 'bit'");
        };
        self.push(number, at);
        Ok(())
    }

    fn is_plain_type(&self) -> bool {
        matches!(self.text.token(), Token::Word("bool" | "bit"))
    }

    /// Whether a type and a name follow, and whether a bracket opens behind them, as behind a function's.
    fn is_declaration(&self, of_function: bool) -> bool {
        let type_length = if self.text.token() == Token::Word("bit") { 4 } else { 1 };
        let opens = self.text.ahead(type_length + 1) == Token::Symbol("(");
        (self.is_plain_type() || self.text.is_name()) && opens == of_function && !self.is_state()
    }

    fn global(&mut self) -> Read<bool> {
        if !self.is_declaration(false) {
            return Ok(false);
        }
        if self.is_plain_type() {
            self.plain_type()?;
            self.names.header_types.push(None);
        } else {
            let at = self.text.at();
            let name = self.text.name("a type")?;
            let header = self.names.header(name, at)?;
            if header >= MOST_HEADERS {
                return Err(Fault::new(at, format!("there are at most {MOST_HEADERS} header types, h0 and up")));
            }
            self.push(128 + header, at);
            self.names.header_types.push(Some(header));
        }
        self.new_name("a global's name", |maker| &mut maker.names.globals)?;
        self.text.semicolon().map(|()| true)
    }

    fn callable(&mut self) -> Read<bool> {
        let at = self.text.at();
        if self.text.takes_word("action") {
            self.push(0, at);
        } else if self.is_declaration(true) {
            self.push(1, at);
            self.plain_type()?;
        } else {
            return Ok(false);
        }
        self.new_name("a callable's name", |maker| &mut maker.names.callables)?;
        self.bracketed(Self::parameter)?;
        self.text.expect("{")?;
        self.list(Self::local)?;
        self.body()?;
        self.names.parameters.clear();
        self.names.locals.clear();
        Ok(true)
    }

    fn parameter(&mut self) -> Read<()> {
        let at = self.text.at();
        let direction = match self.text.token() {
            Token::Word("in") => 1,
            Token::Word("out") => 2,
            Token::Word("inout") => 3,
            _ => 0,
        };
        if direction > 0 {
            self.text.advance();
        }
        self.push(direction, at);
        self.plain_type()?;
        self.new_name("a parameter's name", |maker| &mut maker.names.parameters)
    }

    fn local(&mut self) -> Read<bool> {
        if !self.is_plain_type() {
            return Ok(false);
        }
        self.plain_type()?;
        let at = self.text.at();
        let name = self.text.name("a local's name")?;
        self.names.declare_local(name, at)?;
        if self.text.token() == Token::Symbol("=") {
            return self.text.fault("a local starts at 0 or false; give it another value by an assignment");
        }
        self.text.semicolon().map(|()| true)
    }

    fn body(&mut self) -> Read<()> {
        self.body_up_to(|maker| maker.text.token() == Token::Symbol("}"))?;
        self.text.expect("}")
    }

    /// The statements of a body: a block, unless there is exactly one.
    pub fn body_up_to(&mut self, end: impl Fn(&Self) -> bool) -> Read<()> {
        let (start, at) = (self.items.len(), self.text.at());
        let mut count = 0;
        while !end(self) {
            self.statement()?;
            count += 1;
        }
        if count != 1 {
            self.insert(start, &[BLOCK, count], at);
        }
        Ok(())
    }

    fn table(&mut self) -> Read<bool> {
        if !self.text.takes_word("table") {
            return Ok(false);
        }
        self.new_name("a table's name", |maker| &mut maker.names.tables)?;
        self.text.expect("{")?;
        self.property("key")?;
        self.text.expect("{")?;
        self.list(Self::key)?;
        self.property("actions")?;
        self.text.expect("{")?;
        let mut actions = Vec::new();
        self.list(|maker| maker.listed(&mut actions))?;
        self.property("default_action")?;
        self.default(&actions)?;
        self.text.expect("}").map(|()| true)
    }

    fn property(&mut self, word: &str) -> Read<()> {
        self.text.expect_word(word)?;
        self.text.expect("=")
    }

    fn key(&mut self) -> Read<bool> {
        if self.text.takes("}") {
            return Ok(false);
        }
        let start = self.items.len();
        self.expression()?;
        self.text.expect(":")?;
        let at = self.text.at();
        let kind = match self.text.token() {
            Token::Word("exact") => 0,
            Token::Word("lpm") => 1,
            Token::Word("ternary") => 2,
            _ => return self.text.expected("'exact', 'lpm' or 'ternary'"),
        };
        self.text.advance();
        self.insert(start, &[kind], at);
        self.text.semicolon().map(|()| true)
    }

    fn listed(&mut self, actions: &mut Vec<u64>) -> Read<bool> {
        if self.text.takes("}") {
            return Ok(false);
        }
        let at = self.text.at();
        let name = self.text.name("an action")?;
        let action = self.names.callable(name, at)?;
        self.push(action, at);
        actions.push(action);
        self.text.semicolon().map(|()| true)
    }

    fn default(&mut self, actions: &[u64]) -> Read<()> {
        let at = self.text.at();
        let position = self.position(actions)?;
        self.push(position, at);
        if self.text.token() == Token::Symbol("(") {
            self.bracketed(Self::plain_value)?;
        } else {
            self.push(0, self.text.at());
        }
        self.text.semicolon()
    }

    /// A position in a table's list of actions: a listed name, or `actions[N]`.
    pub fn position(&mut self, actions: &[u64]) -> Read<u64> {
        let at = self.text.at();
        let name = self.text.name("an action")?;
        if name == "actions" && self.text.takes("[") {
            let position = self.text.number("a position")?;
            self.text.expect("]")?;
            return Ok(position);
        }
        let action = self.names.callable(name, at)?;
        let position = actions.iter().position(|&listed| listed == action);
        position.map(|index| index as u64).ok_or_else(|| Fault::new(at, format!("the table does not list '{name}'")))
    }

    /// A number where the program says its type.
    pub fn plain_value(&mut self) -> Read<()> {
        let at = self.text.at();
        let value = match self.text.token() {
            Token::Word("false") => 0,
            Token::Word("true") => 1,
            Token::Number(number) => number,
            Token::Literal(..) => return self.text.fault("no width stands here: the program says it"),
            _ => return self.text.expected("a number"),
        };
        self.text.advance();
        self.push(value, at);
        Ok(())
    }
}
