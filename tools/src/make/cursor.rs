//! The way through a text's tokens.

use super::tokens::{Placed, Token};
use super::Read;
use crate::source::Fault;

/// Words that name nothing. Others that the grammar uses stand where no name can.
const RESERVED: [&str; 15] = [
    "action", "apply", "bit", "bool", "else", "exit", "false", "header", "if", "in", "inout", "out", "return", "table",
    "true",
];

pub struct Cursor<'a> {
    /// The last one is the text's end.
    tokens: Vec<Placed<'a>>,
    next: usize,
}

impl<'a> Cursor<'a> {
    pub fn new(tokens: Vec<Placed<'a>>) -> Self {
        Cursor { tokens, next: 0 }
    }

    fn placed(&self, ahead: usize) -> Placed<'a> {
        self.tokens[(self.next + ahead).min(self.tokens.len() - 1)]
    }

    /// The token that so many others stand before.
    pub fn ahead(&self, count: usize) -> Token<'a> {
        self.placed(count).token
    }

    pub fn token(&self) -> Token<'a> {
        self.ahead(0)
    }

    /// Where the next token begins in the text.
    pub fn at(&self) -> usize {
        self.placed(0).start
    }

    pub fn advance(&mut self) {
        self.next += 1;
    }

    /// Step over the next token, if it is this one.
    fn takes_token(&mut self, token: Token) -> bool {
        let found = self.token() == token;
        if found {
            self.advance();
        }
        found
    }

    pub fn takes(&mut self, symbol: &'static str) -> bool {
        self.takes_token(Token::Symbol(symbol))
    }

    pub fn takes_word(&mut self, word: &str) -> bool {
        self.takes_token(Token::Word(word))
    }

    pub fn expect(&mut self, symbol: &'static str) -> Read<()> {
        if self.takes(symbol) {
            Ok(())
        } else {
            self.expected(&format!("'{symbol}'"))
        }
    }

    pub fn expect_word(&mut self, word: &str) -> Read<()> {
        if self.takes_word(word) {
            Ok(())
        } else {
            self.expected(&format!("'{word}'"))
        }
    }

    pub fn expect_end(&self) -> Read<()> {
        match self.token() {
            Token::End => Ok(()),
            _ => self.expected("the end"),
        }
    }

    /// A semicolon. If it is missing, it is missed behind the last token.
    pub fn semicolon(&mut self) -> Read<()> {
        if self.takes(";") {
            return Ok(());
        }
        let end = self.next.checked_sub(1).map_or(0, |last| self.tokens[last].end);
        Err(Fault::new(end, "expected ';'"))
    }

    /// Any word.
    pub fn word(&mut self, what: &str) -> Read<&'a str> {
        match self.token() {
            Token::Word(word) => {
                self.advance();
                Ok(word)
            }
            _ => self.expected(what),
        }
    }

    /// Whether a word follows that may name something.
    pub fn is_name(&self) -> bool {
        matches!(self.token(), Token::Word(word) if !RESERVED.contains(&word))
    }

    pub fn name(&mut self, what: &str) -> Read<&'a str> {
        if self.is_name() {
            self.word(what)
        } else {
            self.expected(what)
        }
    }

    pub fn number(&mut self, what: &str) -> Read<u64> {
        match self.token() {
            Token::Number(number) => {
                self.advance();
                Ok(number)
            }
            _ => self.expected(what),
        }
    }

    /// A fault at the next token.
    pub fn fault<T>(&self, message: impl Into<String>) -> Read<T> {
        Err(Fault::new(self.at(), message))
    }

    /// The fault that something else stands here.
    pub fn expected<T>(&self, what: &str) -> Read<T> {
        let found = match self.token() {
            Token::Word(word) => format!("'{word}'"),
            Token::Number(number) => format!("'{number}'"),
            Token::Literal(width, value) => format!("'{width}w{value}'"),
            Token::Symbol(symbol) => format!("'{symbol}'"),
            Token::End => "the end".to_string(),
        };
        self.fault(format!("expected {what}, not {found}"))
    }
}
