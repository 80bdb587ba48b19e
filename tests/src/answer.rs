//! What a bench file is answered with, as result lines and as a list of numbers.

use crate::inputs::{self, Inputs};
use crate::run::{self, End, Limits};
use crate::tree::Program;
use crate::{ceiling, judge, numbers, shape, unjudged};

/// The first fault found: its number, and the byte offset that it is charged to.
#[derive(Clone, Copy, Debug, PartialEq, Eq)]
pub struct Refusal {
    pub number: u8,
    pub place: usize,
}

impl Refusal {
    pub fn at(number: u8, place: usize) -> Refusal {
        Refusal { number, place }
    }
}

#[derive(Clone, Copy, Debug, PartialEq, Eq)]
pub enum Signal {
    Done,
    Exit,
    /// The parser's end, with its error.
    Reject(u64),
}

impl Signal {
    /// What the signal is told as, before the run's numbers.
    pub fn as_numbers(self) -> Vec<u64> {
        match self {
            Signal::Done => vec![1],
            Signal::Exit => vec![2],
            Signal::Reject(error) => vec![4, error],
        }
    }
}

#[derive(Clone, Debug, PartialEq, Eq)]
pub enum Answer {
    Refused(Refusal),
    Finished {
        signal: Signal,
        steps: u64,
        ceiling: u64,
        store: Vec<u64>,
    },
    /// No rule covers what the run came to; only an unjudged run can end so.
    Stuck,
    /// The interpreter gave up; only an unjudged run, whose ceiling nobody asked for, can end so.
    TooLong,
}

/// Judge a file and run it, as the marking program does.
pub fn marked(bytes: &[u8]) -> Answer {
    marked_within(bytes, Limits::default())
}

/// The same with working slots and patience of the caller's choice.
pub fn marked_within(bytes: &[u8], limits: Limits) -> Answer {
    match judged(bytes) {
        Ok((program, inputs, ceiling)) => finish(run::run(&program, inputs, limits), ceiling),
        Err(refusal) => Answer::Refused(refusal),
    }
}

/// What the judge hands to the runner: the program, its inputs and its ceiling.
pub type Judged = Result<(Program, Inputs, u64), Refusal>;

/// The judge: refusals 1 to 12 and 16 in their order, or what it hands on.
pub fn judged(bytes: &[u8]) -> Judged {
    let numbers = numbers::read(bytes)?;
    let (program, rest) = shape::read(&numbers, bytes.len())?;
    judge::judge(&program)?;
    let ceiling = ceiling::judge(&program)?;
    let inputs = inputs::judge(&program, rest, bytes.len())?;
    Ok((program, inputs, ceiling))
}

/// Run a file with refusals 1 to 5 asked and nothing else.
pub fn unjudged(bytes: &[u8]) -> Answer {
    let read = numbers::read(bytes);
    let shape = |numbers| shape::read(numbers, bytes.len());
    match read.as_ref().map_err(|refusal| *refusal).and_then(|numbers| shape(numbers)) {
        Err(refusal) => Answer::Refused(refusal),
        Ok((program, rest)) => match unjudged::cut(&program, rest) {
            Some(inputs) => finish(run::run(&program, inputs, Limits::default()), 0),
            None => Answer::Stuck,
        },
    }
}

fn finish(end: End, ceiling: u64) -> Answer {
    match end {
        End::Finished { signal, steps, store } => Answer::Finished { signal, steps, ceiling, store },
        End::Full => Answer::Refused(Refusal::at(14, 0)),
        End::Stuck => Answer::Stuck,
        End::TooLong => Answer::TooLong,
    }
}

impl Answer {
    /// The lines that the marking program prints; `stuck` and `too long` are the unjudged runs' own.
    pub fn lines(&self) -> String {
        match self {
            Answer::Refused(refusal) => format!("refused {} {}\n", refusal.number, refusal.place),
            Answer::Finished { signal, steps, ceiling, store } => {
                let word = match signal {
                    Signal::Done => "done".to_string(),
                    Signal::Exit => "exit".to_string(),
                    Signal::Reject(error) => format!("reject {error}"),
                };
                format!("{word} {steps} {ceiling}\n{}\n", blanks_between(store))
            }
            Answer::Stuck => "stuck\n".to_string(),
            Answer::TooLong => "too long\n".to_string(),
        }
    }

    /// The answer as a list: 0 and the refusal, 1 (done) or 2 (exit) and the run's numbers, 3 (stuck), or 4 (reject), its
    /// error and the run's numbers. A run that was given up has no such list.
    pub fn as_numbers(&self) -> Option<Vec<u64>> {
        match self {
            Answer::Refused(refusal) => Some(vec![0, u64::from(refusal.number), refusal.place as u64]),
            Answer::Finished { signal, steps, ceiling, store } => {
                let mut list = signal.as_numbers();
                list.extend([*steps, *ceiling]);
                list.extend(store);
                Some(list)
            }
            Answer::Stuck => Some(vec![3]),
            Answer::TooLong => None,
        }
    }
}

/// Numbers in decimal with one blank between two.
pub fn blanks_between(numbers: &[u64]) -> String {
    let words: Vec<String> = numbers.iter().map(u64::to_string).collect();
    words.join(" ")
}
