//! A text as a bench file.

mod cursor;
mod expressions;
mod inputs;
mod names;
mod program;
mod statements;
mod states;
mod tags;
mod tokens;

use crate::names::Sort;
use crate::source::Fault;
use cursor::Cursor;
use names::Names;
use second::numbers::{self, Number, MOST_BYTES};
use second::shape::{self, DEEPEST};
use second::tree::Program;

type Read<T> = Result<T, Fault>;

/// How deep brackets, constructs and lists may nest in a text: more than a file's constructs can.
const DEEPEST_TEXT: usize = 4 * DEEPEST;

/// The bytes that a text stands for. The file passes refusals 1 to 5.
pub fn make(text: &str) -> Result<Vec<u8>, Fault> {
    let text = Cursor::new(tokens::read(text)?);
    let mut maker = Maker { text, items: Vec::new(), names: Names::default(), depth: 0 };
    maker.program()?;
    let program = maker.shaped()?;
    maker.inputs(&program)?;
    maker.bytes()
}

struct Maker<'a> {
    text: Cursor<'a>,
    /// The file's numbers.
    items: Vec<Item<'a>>,
    names: Names<'a>,
    /// How deep the text nests here.
    depth: usize,
}

/// A number of the file, and where the text says it.
struct Item<'a> {
    number: u64,
    at: usize,
    /// What the number is looked up by, once all callables, tables and states are declared.
    name: Option<(Sort, &'a str)>,
}

impl<'a> Maker<'a> {
    fn push(&mut self, number: u64, at: usize) {
        self.items.push(Item { number, at, name: None });
    }

    /// The number of a callable, a table or a state.
    fn push_name(&mut self, sort: Sort, name: &'a str, at: usize) {
        self.items.push(Item { number: 0, at, name: Some((sort, name)) });
    }

    /// Put numbers before those that begin at an index.
    fn insert(&mut self, index: usize, numbers: &[u64], at: usize) {
        let items = numbers.iter().map(|&number| Item { number, at, name: None });
        self.items.splice(index..index, items);
    }

    /// A count and so many members: as many as `member` finds.
    fn list(&mut self, mut member: impl FnMut(&mut Self) -> Read<bool>) -> Read<()> {
        let (index, at) = (self.items.len(), self.text.at());
        self.push(0, at);
        let mut count = 0;
        while member(self)? {
            count += 1;
        }
        self.items[index].number = count;
        Ok(())
    }

    /// A count and so many members, in brackets with commas between.
    fn bracketed(&mut self, mut member: impl FnMut(&mut Self) -> Read<()>) -> Read<()> {
        self.text.expect("(")?;
        let mut first = true;
        self.list(|maker| {
            if maker.text.takes(")") {
                return Ok(false);
            }
            if !std::mem::take(&mut first) && !maker.text.takes(",") {
                return maker.text.expected("',' or ')'");
            }
            member(maker).map(|()| true)
        })
    }

    /// Read what nests one level deeper.
    fn deeper<T>(&mut self, read: impl FnOnce(&mut Self) -> Read<T>) -> Read<T> {
        if self.depth == DEEPEST_TEXT {
            return self.text.fault(too_deep());
        }
        self.depth += 1;
        let outcome = read(self);
        self.depth -= 1;
        outcome
    }

    /// Look up the names of callables, tables and states, now that all are declared.
    fn resolve(&mut self) -> Read<()> {
        for item in &mut self.items {
            item.number = match item.name {
                None => item.number,
                Some((Sort::Table, name)) => self.names.table(name, item.at)?,
                Some((Sort::State, name)) => self.names.state(name, item.at)?,
                Some((_, name)) => self.names.callable(name, item.at)?,
            };
        }
        Ok(())
    }

    fn numbers(&self) -> Vec<u64> {
        self.items.iter().map(|item| item.number).collect()
    }

    /// The program's tree, if the numbers so far keep to the lists and the depth that a file may have.
    fn shaped(&self) -> Read<Program> {
        let place = |(place, value)| Number { value, place };
        let numbers: Vec<Number> = self.numbers().into_iter().enumerate().map(place).collect();
        let refusal = match shape::read(&numbers, numbers.len()) {
            Ok((program, _)) => return Ok(program),
            Err(refusal) => refusal,
        };
        let at = self.items[refusal.place].at;
        match shape::wanted(&numbers, numbers.len()) {
            Some(wanted) if refusal.number == 4 => {
                Err(Fault::new(at, format!("expected {wanted}, not {}", numbers[refusal.place].value)))
            }
            _ => Err(Fault::new(at, too_deep())),
        }
    }

    /// The whole file, if it is no longer than a file may be.
    fn bytes(&self) -> Read<Vec<u8>> {
        let numbers = self.numbers();
        let bytes = numbers::write(&numbers);
        let mut length = 0;
        for (number, item) in numbers.iter().zip(&self.items) {
            length += numbers::write(&[*number]).len();
            if length > MOST_BYTES {
                let message =
                    format!("a bench file has at most {MOST_BYTES} bytes, and this text makes {}", bytes.len());
                return Err(Fault::new(item.at, message));
            }
        }
        Ok(bytes)
    }
}

fn too_deep() -> String {
    format!("constructs nest at most {DEEPEST} deep")
}
