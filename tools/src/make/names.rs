//! What names stand for: what is declared under them, or else the number of a regular name.

use super::tags::expression::{GLOBAL, LOCAL, PARAMETER};
use super::Read;
use crate::names::Sort;
use crate::source::Fault;

/// All names that are declared, each list in file order.
#[derive(Default)]
pub struct Names<'a> {
    pub headers: Vec<&'a str>,
    /// The fields of each header type.
    pub fields: Vec<Vec<&'a str>>,
    pub globals: Vec<&'a str>,
    /// The number of each global's header type; none for a bool or bits.
    pub header_types: Vec<Option<u64>>,
    pub callables: Vec<&'a str>,
    pub tables: Vec<&'a str>,
    pub states: Vec<&'a str>,
    /// Those of the callable at hand.
    pub parameters: Vec<&'a str>,
    pub locals: Vec<&'a str>,
}

/// Add a name to a list.
pub fn declare<'a>(list: &mut Vec<&'a str>, name: &'a str, at: usize) -> Read<()> {
    if list.contains(&name) {
        return Err(Fault::new(at, format!("'{name}' is declared twice")));
    }
    list.push(name);
    Ok(())
}

fn position(list: &[&str], name: &str) -> Option<u64> {
    list.iter().position(|declared| *declared == name).map(|index| index as u64)
}

/// The number that was found for a name.
fn found(number: Option<u64>, name: &str, what: &str, at: usize) -> Read<u64> {
    number.ok_or_else(|| Fault::new(at, format!("there is no {what} '{name}'")))
}

impl<'a> Names<'a> {
    pub fn declare_local(&mut self, name: &'a str, at: usize) -> Read<()> {
        if self.parameters.contains(&name) {
            return Err(Fault::new(at, format!("'{name}' is a parameter already")));
        }
        declare(&mut self.locals, name, at)
    }

    /// Tag and number of a local, a parameter or a global.
    pub fn variable(&self, name: &str, at: usize) -> Read<(u64, u64)> {
        let lists = [(LOCAL, &self.locals), (PARAMETER, &self.parameters), (GLOBAL, &self.globals)];
        let declared = lists.iter().find_map(|(tag, list)| Some((*tag, position(list, name)?)));
        let sorts = [(LOCAL, Sort::Local), (PARAMETER, Sort::Parameter), (GLOBAL, Sort::Global)];
        let regular = || sorts.iter().find_map(|(tag, sort)| Some((*tag, sort.number(name)?)));
        let fault = || Fault::new(at, format!("there is no local, parameter or global '{name}'"));
        declared.or_else(regular).ok_or_else(fault)
    }

    pub fn header(&self, name: &str, at: usize) -> Read<u64> {
        let number = position(&self.headers, name).or_else(|| Sort::Header.number(name));
        found(number, name, "header type", at)
    }

    pub fn global(&self, name: &str, at: usize) -> Read<u64> {
        let number = position(&self.globals, name).or_else(|| Sort::Global.number(name));
        found(number, name, "global", at)
    }

    /// A field of a global, whether or not the global is a header.
    pub fn field(&self, global: u64, name: &str, at: usize) -> Read<u64> {
        let header = self.header_types.get(global as usize).copied().flatten();
        let fields = header.and_then(|header| self.fields.get(header as usize));
        let declared = fields.and_then(|fields| position(fields, name));
        found(declared.or_else(|| Sort::Field.number(name)), name, "field", at)
    }

    pub fn callable(&self, name: &str, at: usize) -> Read<u64> {
        let regular = || Sort::Action.number(name).or_else(|| Sort::Function.number(name));
        found(position(&self.callables, name).or_else(regular), name, "action or function", at)
    }

    pub fn table(&self, name: &str, at: usize) -> Read<u64> {
        let number = position(&self.tables, name).or_else(|| Sort::Table.number(name));
        found(number, name, "table", at)
    }

    pub fn state(&self, name: &str, at: usize) -> Read<u64> {
        let number = position(&self.states, name).or_else(|| Sort::State.number(name));
        found(number, name, "state", at)
    }
}
