//! Entries, store and packet as text, and the numbers that are cut into none of them.

use super::{plain_value, Part, Writer};
use crate::names::Sort;
use second::cut::{self, Entries, Entry, Packet, Pattern, Store, Variable};
use second::numbers::Number;
use second::tree::*;

const NUMBERS_A_LINE: usize = 16;

impl Writer<'_> {
    /// What stands behind the program, in a file of so many bytes.
    pub fn inputs(&mut self, rest: &[Number], length: usize) {
        self.mark_end(length);
        let entries = cut::entries(self.program, rest);
        let Some(count) = entries.count else { return };
        self.entries(count, &entries, length);
        if !entries.are_all_there() {
            let at_an_entry = entries.members.iter().all(|entry| entry.arguments.is_some());
            let first = if at_an_entry { Part::EntryTable } else { Part::Uncut };
            return self.numbers(entries.rest, first, Part::Uncut, length);
        }
        let store = cut::store(self.program, entries.rest);
        self.store(&store, length);
        if !self.is_whole(&store) {
            self.numbers(store.rest, Part::Uncut, Part::Uncut, length);
        } else if self.program.has_parser() {
            let packet = cut::packet(store.rest);
            self.packet(&packet, length);
            self.numbers(packet.rest, Part::BehindPacket, Part::BehindPacket, length);
        } else {
            self.numbers(store.rest, Part::LeftOver, Part::LeftOver, length);
        }
    }

    /// The text's last character is where a number is missed, if nothing follows.
    fn mark_end(&mut self, length: usize) {
        self.page.mark(length, Part::Missing, self.page.here() - 1);
    }

    /// A list that goes on where nothing more can be cut out, or is there.
    fn dots(&mut self, length: usize) {
        self.page.new_line();
        self.page.write_marked("...", length, Part::Missing);
    }

    fn entries(&mut self, count: Number, entries: &Entries, length: usize) {
        self.page.new_section();
        let head = if entries.are_all_there() { "entries".to_string() } else { format!("entries {}", count.value) };
        self.page.write_marked(&head, count.place, Part::EntryCount);
        self.page.write(" ");
        self.page.open();
        for entry in &entries.members {
            self.page.new_line();
            self.entry(entry);
        }
        if !entries.are_all_there() {
            self.dots(length);
        }
        self.page.close();
    }

    fn entry(&mut self, entry: &Entry) {
        let table = &self.program.tables[entry.table.value as usize];
        self.page.write_marked(&Sort::Table.name(entry.table.value), entry.table.place, Part::EntryTable);
        self.page.write(" (");
        for (index, pattern) in entry.patterns.iter().enumerate() {
            self.page.comma_before(index);
            self.pattern(pattern);
        }
        self.page.write("): ");
        self.page.write_marked(&self.action_name(table, entry.position), entry.position.place, Part::Position);
        if let Some(arguments) = &entry.arguments {
            self.plain_arguments(arguments, &self.parameter_types(table, entry.position), Part::Argument);
        }
        self.page.write(";");
    }

    fn pattern(&mut self, pattern: &Pattern) {
        match pattern {
            Pattern::Exact(value) => self.page.write_marked(&value.value.to_string(), value.place, Part::KeyValue),
            Pattern::Lpm { value, length } => {
                self.page.write_marked(&value.value.to_string(), value.place, Part::KeyValue);
                self.page.write("/");
                self.page.write_marked(&length.value.to_string(), length.place, Part::PrefixLength);
            }
            Pattern::Ternary { value, mask } => {
                self.page.write_marked(&format!("{:#x}", value.value), value.place, Part::KeyValue);
                self.page.write(" &&& ");
                self.page.write_marked(&format!("{:#x}", mask.value), mask.place, Part::Mask);
            }
        }
    }

    fn is_whole(&self, store: &Store) -> bool {
        store.variables.len() == self.program.globals.len()
    }

    fn store(&mut self, store: &Store, length: usize) {
        self.page.new_section();
        self.page.write("store ");
        self.page.open();
        for (number, variable) in store.variables.iter().enumerate() {
            self.page.new_line();
            self.page.write(&format!("{} = ", Sort::Global.name(number as u64)));
            self.variable(variable, self.program.globals[number].kind);
            self.page.write(";");
        }
        if !self.is_whole(store) {
            self.dots(length);
        }
        self.page.close();
    }

    fn variable(&mut self, variable: &Variable, kind: GlobalKind) {
        match variable {
            Variable::Plain(number) => {
                let value = plain_value(number.value, plain_type(kind));
                self.page.write_marked(&value, number.place, Part::StoreValue);
            }
            Variable::Header { mark, fields } => {
                self.page.write_marked(&mark_text(mark.value), mark.place, Part::ValidMark);
                self.page.write(" { ");
                for (index, field) in fields.iter().enumerate() {
                    self.page.comma_before(index);
                    self.page.write_marked(&field.value.to_string(), field.place, Part::StoreField);
                }
                self.page.write(" }");
            }
        }
    }

    fn packet(&mut self, packet: &Packet, length: usize) {
        let Some(count) = packet.count else { return self.mark_end(length) };
        self.page.new_section();
        let head = if packet.is_all_there() { "packet".to_string() } else { format!("packet {}", count.value) };
        self.page.write_marked(&head, count.place, Part::PacketCount);
        self.page.write(" ");
        self.page.open();
        for (index, byte) in packet.bytes.iter().enumerate() {
            self.next_number(index);
            self.page.write_marked(&format!("{:#04x}", byte.value), byte.place, Part::PacketByte);
        }
        if !packet.is_all_there() {
            self.dots(length);
        }
        self.page.close();
    }

    /// What separates the number of a list at an index from the one before.
    fn next_number(&mut self, index: usize) {
        if index.is_multiple_of(NUMBERS_A_LINE) {
            self.page.new_line();
        } else {
            self.page.write(" ");
        }
    }

    /// What is not cut, number by number.
    fn numbers(&mut self, numbers: &[Number], first: Part, others: Part, length: usize) {
        if numbers.is_empty() {
            return;
        }
        self.page.new_section();
        self.page.write("numbers ");
        self.page.open();
        for (index, number) in numbers.iter().enumerate() {
            self.next_number(index);
            let part = if index == 0 { first } else { others };
            self.page.write_marked(&number.value.to_string(), number.place, part);
        }
        self.page.close();
        self.mark_end(length);
    }
}

fn plain_type(kind: GlobalKind) -> Option<Type> {
    match kind {
        GlobalKind::Plain(kind) => Some(kind),
        GlobalKind::Header(_) => None,
    }
}

/// A header's valid mark.
pub fn mark_text(mark: u64) -> String {
    match mark {
        0 => "invalid".to_string(),
        1 => "valid".to_string(),
        other => format!("mark {other}"),
    }
}
