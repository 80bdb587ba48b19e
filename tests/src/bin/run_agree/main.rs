//! The verified judge and run beside the second interpreter's, on the corpus, on every change of one byte in its
//! shortest files, on all strings of at most two bytes, on the deepest files and on generated ones; or on all strings of
//! three bytes. `tests/run-agree` links it to the proved code.
//!
//! ```text
//! run_agree SEED COUNT [EXAMPLE...]   COUNT generated files of SEED, the examples, and the others
//! run_agree --strings                 all strings of three bytes
//! ```

mod lent;
mod tally;
mod wanted;

use second::example;
use second::generate::{bench_file, deepest_files};
use second::numbers::MOST_BYTES;
use std::process::ExitCode;
use std::sync::atomic::{AtomicU64, Ordering};
use std::thread;
use tally::Tally;

/// Examples of at most so many bytes are changed, the smallest one with a parser among them.
const SHORTEST: usize = 11;
/// How many threads share the generated files and the strings of three bytes.
const THREADS: usize = 2;
/// How often it is told how far they are: after so many files.
const STRETCH: u64 = 1_000_000;

fn compare_examples(tally: &mut Tally, examples: &[String]) -> Result<(), String> {
    for file in examples {
        let bytes = example::read(file)?.bytes;
        tally.compare(file, &bytes);
        if bytes.len() <= SHORTEST {
            compare_changed(tally, file, &bytes);
        }
    }
    Ok(())
}

/// Every change of one byte.
fn compare_changed(tally: &mut Tally, name: &str, bytes: &[u8]) {
    for place in 0..bytes.len() {
        let mut changed = bytes.to_vec();
        for value in (0..=u8::MAX).filter(|&value| value != bytes[place]) {
            changed[place] = value;
            tally.compare(&format_args!("{name} with {value} at {place}"), &changed);
        }
    }
}

/// All strings of at most two bytes.
fn compare_short_strings(tally: &mut Tally) {
    tally.compare(&"no bytes", &[]);
    for first in 0..=u8::MAX {
        tally.compare(&format_args!("byte {first}"), &[first]);
        for second in 0..=u8::MAX {
            tally.compare(&format_args!("bytes {first} {second}"), &[first, second]);
        }
    }
}

fn compare_generated(tally: &mut Tally, seed: u64, index: u64) {
    let largest = if index.is_multiple_of(4) { MOST_BYTES } else { 160 };
    tally.compare(&format_args!("file {index} of seed {seed}"), &bench_file(seed, index, largest));
}

/// The string of three bytes that makes this number.
fn compare_string(tally: &mut Tally, number: u64) {
    let bytes = [(number >> 16) as u8, (number >> 8) as u8, number as u8];
    tally.compare(&format_args!("bytes {bytes:?}"), &bytes);
}

/// Compares the files of all numbers below the count, in several threads.
fn compare_shared(count: u64, compare: impl Fn(&mut Tally, u64) + Sync) -> Tally {
    let next = AtomicU64::new(0);
    let work = || {
        let mut tally = Tally::new();
        loop {
            let number = next.fetch_add(1, Ordering::Relaxed);
            if number >= count {
                return tally;
            }
            if number > 0 && number.is_multiple_of(STRETCH) {
                eprintln!("{number} of {count}");
            }
            compare(&mut tally, number);
        }
    };
    thread::scope(|scope| {
        let threads: Vec<_> = (0..THREADS).map(|_| scope.spawn(work)).collect();
        let mut all = Tally::new();
        for thread in threads {
            all.add(thread.join().expect("a thread that compares"));
        }
        all
    })
}

fn compare_all(seed: u64, count: u64, examples: &[String]) -> Result<Tally, String> {
    let mut tally = Tally::new();
    compare_examples(&mut tally, examples)?;
    compare_short_strings(&mut tally);
    for (name, bytes) in deepest_files() {
        tally.compare(&name, &bytes);
    }
    tally.add(compare_shared(count, |tally, index| compare_generated(tally, seed, index)));
    Ok(tally)
}

fn agree(arguments: &[String]) -> Result<Tally, String> {
    let (seed, count, examples) = match arguments {
        [word] if word == "--strings" => return Ok(compare_shared(1 << 24, compare_string)),
        [seed, count, examples @ ..] => (seed, count, examples),
        _ => return Err("SEED COUNT [EXAMPLE...] or --strings wanted".to_string()),
    };
    match (seed.parse(), count.parse()) {
        (Ok(seed), Ok(count)) => compare_all(seed, count, examples),
        _ => Err(format!("'{seed}' or '{count}' is no number")),
    }
}

fn main() -> ExitCode {
    let arguments: Vec<String> = std::env::args().skip(1).collect();
    match agree(&arguments) {
        Ok(tally) => {
            tally.print();
            if tally.agrees() {
                ExitCode::SUCCESS
            } else {
                ExitCode::FAILURE
            }
        }
        Err(fault) => {
            eprintln!("run_agree: {fault}");
            ExitCode::FAILURE
        }
    }
}
