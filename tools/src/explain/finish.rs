//! A run of an accepted file: how it ended, and the final store beside the first one.

use crate::names::Sort;
use crate::paint::Paint;
use crate::show::{mark_text, plain_value};
use second::answer::Signal;
use second::cut::{self, Variable};
use second::tree::{GlobalKind, Program, Type};
use second::{numbers, shape};

/// How the run went, in one line.
pub fn sentence(signal: Signal, steps: u64, ceiling: u64) -> String {
    let end = match signal {
        Signal::Done => "done".to_string(),
        Signal::Exit => "by exit".to_string(),
        Signal::Reject(error) => format!("rejected with error {error}"),
    };
    format!("Accepted. Ceiling: {ceiling}. Steps: {steps}. End: {end}.\n")
}

/// A number of the store: its name, and what kind of number it is.
struct Slot {
    name: String,
    kind: SlotKind,
}

enum SlotKind {
    Value(Type),
    ValidMark,
}

impl Slot {
    fn text(&self, value: u64) -> String {
        match self.kind {
            SlotKind::Value(kind) => plain_value(value, Some(kind)),
            SlotKind::ValidMark => mark_text(value),
        }
    }
}

/// First and final store, by name; what has changed is marked.
pub fn stores(bytes: &[u8], final_store: &[u64], paint: Paint) -> String {
    let numbers = numbers::read(bytes).unwrap_or_default();
    let Ok((program, rest)) = shape::read(&numbers, bytes.len()) else { return String::new() };
    let first_store = first_store(&program, rest);
    let slots = slots(&program);
    if slots.is_empty() {
        return "The store is empty.\n".to_string();
    }
    let mut rows = vec![["store", "first", "final"].map(str::to_string)];
    for (slot, (first, last)) in slots.iter().zip(first_store.iter().zip(final_store)) {
        rows.push([slot.name.clone(), slot.text(*first), slot.text(*last)]);
    }
    format!("\n{}", table(&rows, paint))
}

/// The store's numbers that stand behind a program.
fn first_store(program: &Program, rest: &[numbers::Number]) -> Vec<u64> {
    let entries = cut::entries(program, rest);
    let mut values = Vec::new();
    for variable in cut::store(program, entries.rest).variables {
        match variable {
            Variable::Plain(number) => values.push(number.value),
            Variable::Header { mark, fields } => {
                values.push(mark.value);
                values.extend(fields.iter().map(|field| field.value));
            }
        }
    }
    values
}

fn slots(program: &Program) -> Vec<Slot> {
    let mut slots = Vec::new();
    for (number, global) in program.globals.iter().enumerate() {
        let name = Sort::Global.name(number as u64);
        match global.kind {
            GlobalKind::Plain(kind) => slots.push(Slot { name, kind: SlotKind::Value(kind) }),
            GlobalKind::Header(header) => {
                slots.push(Slot { name: name.clone(), kind: SlotKind::ValidMark });
                for (field, width) in program.headers.get(header).into_iter().flatten().enumerate() {
                    let name = format!("{name}.{}", Sort::Field.name(field as u64));
                    slots.push(Slot { name, kind: SlotKind::Value(Type::Bits(*width)) });
                }
            }
        }
    }
    slots
}

/// Rows of name, first and final value, under a head.
fn table(rows: &[[String; 3]], paint: Paint) -> String {
    let width = |column: usize| rows.iter().map(|row| row[column].len()).max().unwrap_or(0);
    let widths = [width(0), width(1), width(2)];
    let line = |(index, [name, first, last]): (usize, &[String; 3])| {
        let text = format!("{name:<0$}  {first:>1$}  {last:>2$}", widths[0], widths[1], widths[2]);
        if index > 0 && first != last {
            format!("    {}\n", paint.change(&format!("{text}  changed")))
        } else {
            format!("    {text}\n")
        }
    };
    rows.iter().enumerate().map(line).collect()
}
