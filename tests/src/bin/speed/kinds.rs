//! Kinds of files for the judge, each made as long as fits a size.

use crate::constructs::*;

/// A name, and the file of a size.
pub type Kind = (&'static str, fn(usize) -> Vec<u8>);

pub const KINDS: [Kind; 7] = [
    ("assignments", assignments),
    ("a long key", long_key),
    ("eight tables", eight_tables),
    ("sixteen callables", sixteen_callables),
    ("calls", calls),
    ("deep blocks", deep_blocks),
    ("refused calls", refused_calls),
];

/// Assignments `g = g + 7`.
fn assignments(size: usize) -> Vec<u8> {
    let add = assign(global(0), binary(PLUS, global(0), bits(32, 7)));
    fitted(size, |copies| Bench {
        globals: vec![32],
        body: block(&vec![add.clone(); copies]),
        store: vec![5],
        ..Bench::default()
    })
}

/// One table with one long key, and 64 entries.
fn long_key(size: usize) -> Vec<u8> {
    fitted(size, |copies| Bench {
        globals: vec![32],
        callables: vec![action(&[], &[], empty())],
        tables: vec![table(&[(EXACT, sum(copies))], &[0], 0, &[])],
        body: apply(0),
        entries: (0..64).map(|value| vec![0, value, 0]).collect(),
        store: vec![5],
        ..Bench::default()
    })
}

/// A sum of so many globals, as flat as it can be.
fn sum(leaves: usize) -> Numbers {
    if leaves < 2 {
        return global(0);
    }
    binary(PLUS, sum(leaves / 2), sum(leaves - leaves / 2))
}

/// Eight tables that list an action of eight parameters eight times, applied as often as fits.
fn eight_tables(size: usize) -> Vec<u8> {
    let applies = |copies: usize| (0..copies as u64).map(|index| apply(index % 8)).collect::<Vec<_>>();
    fitted(size, |copies| Bench {
        globals: vec![8],
        callables: vec![action(&[[NONE, 8]; 8], &[], empty())],
        tables: vec![table(&[(EXACT, global(0))], &[0; 8], 0, &[7; 8]); 8],
        body: block(&applies(copies)),
        store: vec![5],
        ..Bench::default()
    })
}

/// Sixteen callables, each of which calls the one below as often as fits: refused 9.
fn sixteen_callables(size: usize) -> Vec<u8> {
    let calling = |below: u64, copies: usize| action(&[], &[], block(&vec![call(below, &[]); copies]));
    fitted(size, |copies| Bench {
        callables: [vec![action(&[], &[], empty())], (0..15).map(|below| calling(below, copies)).collect()].concat(),
        body: call(15, &[]),
        ..Bench::default()
    })
}

/// Calls of a function of eight parameters.
fn calls(size: usize) -> Vec<u8> {
    fitted(size, |copies| calling(call(0, &vec![global(0); 8]), copies))
}

/// Calls without arguments of a function of eight parameters: refused 7 at the first.
fn refused_calls(size: usize) -> Vec<u8> {
    fitted(size, |copies| calling(call(0, &[]), copies))
}

/// So many calls of a function of eight parameters that gives the first back.
fn calling(statement: Numbers, copies: usize) -> Bench {
    Bench {
        globals: vec![8],
        callables: vec![function(8, &[[IN, 8]; 8], &[], give_back(parameter(0)))],
        body: block(&vec![statement; copies]),
        store: vec![5],
        ..Bench::default()
    }
}

/// Blocks in blocks, 31 deep.
fn deep_blocks(size: usize) -> Vec<u8> {
    let chain = (0..28).fold(block(&[]), |inner, _| block(&[inner]));
    fitted(size, |copies| Bench { body: block(&vec![chain.clone(); copies]), ..Bench::default() })
}

/// The file of as many copies as fit.
fn fitted(size: usize, file: impl Fn(usize) -> Bench) -> Vec<u8> {
    let bytes = |copies: usize| file(copies).bytes();
    bytes(most(size, bytes))
}
