//! The deepest runs: 16 callables that each call the one below from their deepest level, and an apply body that calls the
//! last of them so. What the levels are differs from file to file.

use crate::numbers::{self, MOST_BYTES};

const CALLABLES: usize = 16;
const DEEPEST: usize = 32;
const MOST_PARAMETERS: usize = 8;
const TRUE: [u64; 2] = [0, 1];

/// The numbers of a construct before and behind the one that it holds.
type Level = (Vec<u64>, Vec<u64>);

/// Names and bytes of the files.
pub fn deepest_files() -> Vec<(String, Vec<u8>)> {
    let not = (vec![7], vec![]);
    let first_operand = (vec![9, 12], TRUE.to_vec());
    let second_operand = (vec![9, 12, 0, 1], vec![]);
    let mut files = vec![
        ("deepest-not".to_string(), of_expressions(&not, &not, 0)),
        ("deepest-first-operand".to_string(), of_expressions(&first_operand, &first_operand, 0)),
        ("deepest-second-operand".to_string(), of_expressions(&second_operand, &second_operand, 0)),
        ("deepest-block".to_string(), of_statements(&(vec![3, 1], vec![]))),
        ("deepest-if".to_string(), of_statements(&(vec![2, 0, 1], vec![0]))),
    ];
    for count in 1..=MOST_PARAMETERS {
        let last_argument = ([call(0, count), TRUE.repeat(count - 1)].concat(), vec![]);
        files.push((format!("deepest-argument-{count}"), of_expressions(&first_operand, &last_argument, count)));
    }
    files
}

/// A call of a function up to its arguments.
fn call(callable: usize, arguments: usize) -> Vec<u64> {
    vec![13, callable as u64, arguments as u64]
}

/// Functions whose levels are expressions, as many of them heavy ones as the bytes allow and the others light ones. The
/// first function has so many parameters.
fn of_expressions(light: &Level, heavy: &Level, parameters: usize) -> Vec<u8> {
    let levels = CALLABLES * (DEEPEST - 2);
    let files = (0..=levels).rev().map(|most| functions(light, heavy, most, parameters));
    files.into_iter().find(|bytes| bytes.len() <= MOST_BYTES).expect("light levels fit")
}

fn functions(light: &Level, heavy: &Level, most: usize, parameters: usize) -> Vec<u8> {
    let mut heavy_left = most;
    let mut calling = |holder: &[u64], callable: usize| {
        let arguments = if callable == 0 { parameters } else { 0 };
        let levels = DEEPEST - 2 - usize::from(arguments > 0);
        let heavies = heavy_left.min(levels);
        heavy_left -= heavies;
        let inner = [call(callable, arguments), TRUE.repeat(arguments)].concat();
        [holder, &around(heavy, heavies, &around(light, levels - heavies, &inner))].concat()
    };
    let last = [&[6], [7].repeat(DEEPEST - 2).as_slice(), &TRUE].concat();
    let mut callables = vec![[&[1, 0, parameters as u64], [1, 0].repeat(parameters).as_slice(), &[0], &last].concat()];
    callables.extend((1..CALLABLES).map(|number| calling(&[1, 0, 0, 0, 6], number - 1)));
    file(&callables, &calling(&[1, 4, 0], CALLABLES - 1))
}

/// Actions without parameters, whose levels are statements.
fn of_statements(level: &Level) -> Vec<u8> {
    let calling = |callable: usize| around(level, DEEPEST - 1, &[4, callable as u64, 0]);
    let mut callables = vec![[vec![0, 0, 0], around(level, DEEPEST - 1, &[0])].concat()];
    callables.extend((1..CALLABLES).map(|number| [vec![0, 0, 0], calling(number - 1)].concat()));
    file(&callables, &calling(CALLABLES - 1))
}

/// So many levels, each in the one before, around what is given.
fn around((before, after): &Level, levels: usize, inner: &[u64]) -> Vec<u64> {
    [&before.repeat(levels), inner, &after.repeat(levels)].concat()
}

/// A bench file with one global, a bool that is false, no table and no entry.
fn file(callables: &[Vec<u64>], apply_body: &[u64]) -> Vec<u8> {
    let numbers = [&[1, 0, 1, 0, CALLABLES as u64], callables.concat().as_slice(), &[0], apply_body, &[0, 0]].concat();
    numbers::write(&numbers)
}
