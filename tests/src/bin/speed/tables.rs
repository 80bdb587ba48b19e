//! Files that apply tables. The key is a global that is 0.

use crate::constructs::*;
use second::answer::judged;
use second::numbers::MOST_BYTES;

/// The most entries and the most tables of a file.
pub const MOST_ENTRIES: usize = 64;
const MOST_TABLES: usize = 8;

/// How often one table is applied.
const APPLIES: usize = 1000;

/// A file that applies tables which have so many entries, of all that are in it.
pub struct Applied {
    pub own: usize,
    pub all: usize,
    pub applies: usize,
    pub bytes: Vec<u8>,
}

/// The keys of a table, none of which matches an entry; where there are four, the last alone does not.
#[derive(Clone, Copy)]
pub enum Keys {
    Exact,
    Lpm,
    Ternary,
    FourTernary,
}

impl Keys {
    fn keys(self) -> Vec<(u64, Numbers)> {
        match self {
            Keys::Exact => vec![(EXACT, global(0))],
            Keys::Lpm => vec![(LPM, global(0))],
            Keys::Ternary => vec![(TERNARY, global(0))],
            Keys::FourTernary => vec![(TERNARY, global(0)); 4],
        }
    }

    /// The patterns of an entry, different ones for each index.
    fn patterns(self, index: usize) -> Numbers {
        let number = index as u64 + 1;
        match self {
            Keys::Exact => vec![number],
            Keys::Lpm => vec![number << 8, 8],
            Keys::Ternary => vec![number, 127],
            Keys::FourTernary => vec![0, 0, 0, 0, 0, 0, number, 127],
        }
    }
}

/// One table with so many entries of so many in the file. The others are a second table's.
pub fn one_table(keys: Keys, own: usize, all: usize) -> Applied {
    let table_of = |index: usize| u64::from(!index.is_multiple_of(all / own));
    let bytes = applied(keys, 2, &vec![apply(0); APPLIES], (0..all).map(|index| (table_of(index), index)));
    Applied { own, all, applies: APPLIES, bytes }
}

/// 64 entries of eight tables, which are applied in turn as often as fits.
pub fn eight_tables(keys: Keys) -> Applied {
    let file = |applies: usize| {
        let statements: Vec<Numbers> = (0..applies).map(|index| apply((index % MOST_TABLES) as u64)).collect();
        let entries = (0..MOST_ENTRIES).map(|index| ((index % MOST_TABLES) as u64, index));
        applied(keys, MOST_TABLES, &statements, entries)
    };
    let applies = most(MOST_BYTES, file);
    Applied { own: MOST_ENTRIES / MOST_TABLES, all: MOST_ENTRIES, applies, bytes: file(applies) }
}

/// A file of so many tables with an action that does nothing, and entries by table and index.
fn applied(keys: Keys, tables: usize, statements: &[Numbers], entries: impl Iterator<Item = (u64, usize)>) -> Vec<u8> {
    let bench = Bench {
        globals: vec![16],
        callables: vec![action(&[], &[], empty())],
        tables: vec![table(&keys.keys(), &[0], 0, &[]); tables],
        body: block(statements),
        entries: entries.map(|(table, index)| [vec![table], keys.patterns(index), vec![0]].concat()).collect(),
        store: vec![0],
        ..Bench::default()
    };
    bench.bytes()
}

/// A run of nearly so many steps: eight tables of eight entries, applied 1,500 times, whose actions call.
pub fn many_steps(wanted: u64) -> Vec<u8> {
    let all = (1..=64).flat_map(|inner| (1..=16).map(move |outer| [inner, outer]));
    let files = all.map(|counts| working_tables(1500, counts)).filter(|bytes| bytes.len() <= MOST_BYTES);
    let judged = files.filter_map(|bytes| judged(&bytes).ok().map(|(_, _, ceiling)| (ceiling, bytes)));
    judged.filter(|(ceiling, _)| *ceiling <= wanted).max_by_key(|(ceiling, _)| *ceiling).expect("few calls fit").1
}

/// Tables that find an entry. Its action keeps its argument and calls an action that adds it up.
fn working_tables(applies: u64, [inner, outer]: [usize; 2]) -> Vec<u8> {
    let add = assign(global(1), binary(PLUS, global(1), parameter(0)));
    let adds = block(&vec![call(0, &[global(2)]); inner]);
    let listed = [vec![assign(global(2), parameter(0))], vec![call(1, &[]); outer]].concat();
    let statements: Vec<Numbers> = (0..applies).map(|index| apply(index % 8)).collect();
    let bench = Bench {
        globals: vec![16, 32, 32],
        callables: vec![
            action(&[[IN, 32]], &[], add),
            action(&[], &[], adds),
            action(&[[NONE, 32]], &[], block(&listed)),
        ],
        tables: vec![table(&[(EXACT, global(0))], &[2], 0, &[0]); MOST_TABLES],
        body: block(&statements),
        entries: (0..MOST_ENTRIES as u64).map(|index| vec![index % 8, index / 8, 0, index]).collect(),
        store: vec![4, 0, 0],
        ..Bench::default()
    };
    bench.bytes()
}
