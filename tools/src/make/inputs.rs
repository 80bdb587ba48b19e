//! Entries, store and packet, from text to numbers, and the numbers that are cut into none of them.

use super::tokens::Token;
use super::{Maker, Read};
use crate::source::Fault;
use second::tree::*;

impl Maker<'_> {
    /// What stands behind the program, up to the text's end.
    pub fn inputs(&mut self, program: &Program) -> Read<()> {
        match self.text.token() {
            Token::Word("numbers") | Token::End => {}
            _ => {
                if self.entries(program)? && self.store(program)? && program.has_parser() {
                    self.packet()?;
                }
            }
        }
        self.plain_numbers()?;
        self.text.expect_end()
    }

    /// The entries; whether they are all there.
    fn entries(&mut self, program: &Program) -> Read<bool> {
        self.text_list("entries", |maker| maker.entry(program))
    }

    /// The packet, if there is one.
    fn packet(&mut self) -> Read<()> {
        if self.text.token() == Token::Word("packet") {
            self.text_list("packet", Self::plain_number)?;
        }
        Ok(())
    }

    /// A word and a list in braces, which says its count before them if it ends in '...'; whether it does not.
    fn text_list(&mut self, word: &str, mut member: impl FnMut(&mut Self) -> Read<()>) -> Read<bool> {
        let (index, at) = (self.items.len(), self.text.at());
        self.text.expect_word(word)?;
        let stated = match self.text.token() {
            Token::Number(_) => Some(self.text.number("a count")?),
            _ => None,
        };
        self.push(stated.unwrap_or(0), at);
        self.text.expect("{")?;
        let mut count = 0;
        while !matches!(self.text.token(), Token::Symbol("}" | "...")) {
            member(self)?;
            count += 1;
        }
        let dots = self.text.takes("...");
        self.text.expect("}")?;
        match (stated, dots) {
            (None, false) => self.items[index].number = count,
            (Some(_), true) => {}
            (None, true) => {
                return Err(Fault::new(at, format!("a list that ends in '...' says its count: {word} 5 {{")));
            }
            (Some(_), false) => return Err(Fault::new(at, "only a list that ends in '...' says its count")),
        }
        Ok(!dots)
    }

    fn entry(&mut self, program: &Program) -> Read<()> {
        let at = self.text.at();
        let name = self.text.name("a table")?;
        let number = self.names.table(name, at)?;
        let Some(table) = named(&program.tables, number) else {
            return Err(Fault::new(at, format!("there is no table '{name}'")));
        };
        self.push(number, at);
        self.text.expect("(")?;
        let count = counted(table.keys.len(), "key");
        self.each(&table.keys, ")", &format!("'{name}' has {count}"), |maker, key| maker.pattern(key.kind))?;
        self.text.expect(":")?;
        self.chosen(program, table)
    }

    fn pattern(&mut self, kind: KeyKind) -> Read<()> {
        self.plain_value()?;
        let symbol = match kind {
            KeyKind::Exact => return Ok(()),
            KeyKind::Lpm => "/",
            KeyKind::Ternary => "&&&",
        };
        self.text.expect(symbol)?;
        self.plain_value()
    }

    /// An entry's action and arguments. Nothing can be cut behind an action that does not exist.
    fn chosen(&mut self, program: &Program, table: &Table) -> Read<()> {
        let at = self.text.at();
        let actions: Vec<u64> = table.actions.iter().map(|action| action.value).collect();
        let position = self.position(&actions)?;
        self.push(position, at);
        let action = named(&actions, position).and_then(|&action| named(&program.callables, action));
        let Some(action) = action else {
            self.text.semicolon()?;
            return match self.text.token() {
                Token::Symbol("...") => Ok(()),
                _ => self.text.expected("'...', since that action has no known parameters"),
            };
        };
        if self.text.takes("(") {
            let count = counted(action.parameters.len(), "parameter");
            self.each(&action.parameters, ")", &format!("the action has {count}"), |maker, _| maker.plain_value())?;
        } else if !action.parameters.is_empty() {
            return self.text.expected("'('");
        }
        self.text.semicolon()
    }

    /// One for each member of a list, with commas between, and a closing bracket; `has` says how many there have to be.
    fn each<T>(
        &mut self,
        members: &[T],
        close: &'static str,
        has: &str,
        mut read: impl FnMut(&mut Self, &T) -> Read<()>,
    ) -> Read<()> {
        for (index, member) in members.iter().enumerate() {
            let ended = self.text.token() == Token::Symbol(close);
            if ended || index > 0 && !self.text.takes(",") {
                return self.text.fault(has);
            }
            read(self, member)?;
        }
        if self.text.takes(close) {
            Ok(())
        } else {
            self.text.fault(has)
        }
    }

    /// A value for each global in order, up to `...`; whether all are there.
    fn store(&mut self, program: &Program) -> Read<bool> {
        self.text.expect_word("store")?;
        self.text.expect("{")?;
        for (number, global) in program.globals.iter().enumerate() {
            if self.text.takes("...") {
                return self.text.expect("}").map(|()| false);
            }
            self.next_global(number)?;
            self.text.expect("=")?;
            match global.kind {
                GlobalKind::Plain(_) => self.plain_value()?,
                GlobalKind::Header(header) => self.header_value(program, header)?,
            }
            self.text.semicolon()?;
        }
        self.text.expect("}").map(|()| true)
    }

    /// The name of the global whose value has its turn.
    fn next_global(&mut self, number: usize) -> Read<()> {
        let at = self.text.at();
        let expected = format!("the value of '{}'", self.names.globals[number]);
        let name = self.text.name(&expected)?;
        if self.names.global(name, at)? == number as u64 {
            Ok(())
        } else {
            Err(Fault::new(at, format!("expected {expected}, not that of '{name}'")))
        }
    }

    /// A valid mark and the fields.
    fn header_value(&mut self, program: &Program, header: usize) -> Read<()> {
        let at = self.text.at();
        let Some(widths) = program.headers.get(header) else {
            return self.text.fault("a header type that does not exist has no values");
        };
        let mark = match self.text.word("'valid' or 'invalid'")? {
            "valid" => 1,
            "invalid" => 0,
            "mark" => self.text.number("a valid mark's number")?,
            _ => return Err(Fault::new(at, "expected 'valid' or 'invalid'")),
        };
        self.push(mark, at);
        self.text.expect("{")?;
        let has = format!("the header has {}", counted(widths.len(), "field"));
        self.each(widths, "}", &has, |maker, _| maker.plain_value())
    }

    fn plain_numbers(&mut self) -> Read<()> {
        if !self.text.takes_word("numbers") {
            return Ok(());
        }
        self.text.expect("{")?;
        while !self.text.takes("}") {
            self.plain_number()?;
        }
        Ok(())
    }

    fn plain_number(&mut self) -> Read<()> {
        let at = self.text.at();
        let number = self.text.number("a number")?;
        self.push(number, at);
        Ok(())
    }
}

fn counted(count: usize, what: &str) -> String {
    format!("{count} {what}{}", if count == 1 { "" } else { "s" })
}
