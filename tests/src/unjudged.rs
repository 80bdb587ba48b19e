//! The inputs of a program that nobody judged: cut out of the numbers where they can be.

use crate::cut;
use crate::inputs::{store_and_packet_of, Entry, Inputs, Pattern, MOST_ENTRIES};
use crate::numbers::Number;
use crate::tree::*;

/// Entries as they stand, fit or not, and a store and a packet that fit; numbers left over are ignored.
/// None where a number names nothing, where numbers run out, or where store or packet do not fit.
pub fn cut(program: &Program, rest: &[Number]) -> Option<Inputs> {
    if program.globals.iter().any(|global| is_of_missing_type(program, global)) {
        return None;
    }
    let cut = cut::entries(program, rest);
    if !cut.are_all_there() || cut.members.len() as u64 > MOST_ENTRIES {
        return None;
    }
    let entries = cut.members.iter().map(entry).collect::<Option<_>>()?;
    let (store, packet) = store_and_packet_of(program, cut.rest)?;
    Some(Inputs { entries, store, packet })
}

fn is_of_missing_type(program: &Program, global: &Global) -> bool {
    matches!(global.kind, GlobalKind::Header(header) if header >= program.headers.len())
}

fn entry(cut: &cut::Entry) -> Option<Entry> {
    let arguments = cut.arguments.as_ref()?.iter().map(|argument| argument.value).collect();
    let patterns = cut.patterns.iter().map(pattern).collect();
    Some(Entry { table: cut.table.value as usize, patterns, position: cut.position.value as usize, arguments })
}

fn pattern(cut: &cut::Pattern) -> Pattern {
    match cut {
        cut::Pattern::Exact(value) => Pattern::Exact(value.value),
        cut::Pattern::Lpm { value, length } => Pattern::Lpm { value: value.value, length: length.value },
        cut::Pattern::Ternary { value, mask } => Pattern::Ternary { value: value.value, mask: mask.value },
    }
}
