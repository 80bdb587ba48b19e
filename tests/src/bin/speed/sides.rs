//! The two that are measured: the proved library through its C calls, and the second interpreter.

use crate::timing::shortest;
use second::answer::{judged, marked, Answer};
use second::library::{self, judge_says, run_says, Numbers, MOST_STORE};
use second::numbers::{self, MOST_BYTES};
use second::run::WORKING_SLOTS;
use std::collections::HashMap;
use std::hint::black_box;

#[derive(Clone, Copy, PartialEq, Eq, Hash)]
pub enum Operation {
    Read,
    Judge,
    Run,
}

impl Operation {
    pub fn name(self) -> &'static str {
        match self {
            Operation::Read => "read",
            Operation::Judge => "judge",
            Operation::Run => "run",
        }
    }
}

/// The nanoseconds of an operation on a file.
#[derive(Clone, Copy)]
pub struct Times {
    pub library: f64,
    pub second: f64,
}

impl Times {
    const LONGEST: Times = Times { library: f64::INFINITY, second: f64::INFINITY };

    pub fn ratio(self) -> f64 {
        self.second / self.library
    }

    pub fn less(self, other: Times) -> Times {
        Times { library: self.library - other.library, second: self.second - other.second }
    }

    pub fn over(self, count: usize) -> Times {
        Times { library: self.library / count as f64, second: self.second / count as f64 }
    }
}

/// The library with the slots that it is lent, which are not cleared between two calls; and the shortest times that
/// were measured so far.
pub struct Library {
    numbers: Vec<u64>,
    results: Vec<u64>,
    working: Vec<u64>,
    least: HashMap<(Operation, Vec<Vec<u8>>), Times>,
    least_zeroing: f64,
}

impl Library {
    pub fn new() -> Library {
        Library {
            numbers: vec![0; MOST_BYTES],
            results: vec![0; MOST_STORE],
            working: vec![0; WORKING_SLOTS],
            least: HashMap::new(),
            least_zeroing: f64::INFINITY,
        }
    }

    fn call(&mut self, operation: Operation, bytes: &[u8]) -> Numbers {
        let Library { numbers, results, working, .. } = self;
        match operation {
            Operation::Read => library::read(bytes, numbers),
            Operation::Judge => library::judge(bytes),
            Operation::Run => library::run(bytes, results, MOST_STORE, working, WORKING_SLOTS),
        }
    }

    /// The times of an operation on a file, the average of several: the shortest of these and of all measured before.
    pub fn times(&mut self, operation: Operation, files: &[Vec<u8>]) -> Times {
        let now = self.times_now(operation, files).over(files.len());
        let least = self.least.entry((operation, files.to_vec())).or_insert(Times::LONGEST);
        *least = Times { library: least.library.min(now.library), second: least.second.min(now.second) };
        *least
    }

    /// The times of an operation on all files.
    fn times_now(&mut self, operation: Operation, files: &[Vec<u8>]) -> Times {
        let mut first = || {
            for bytes in files {
                black_box(self.call(operation, black_box(bytes)));
            }
        };
        let mut other = || {
            for bytes in files {
                call_second(operation, black_box(bytes));
            }
        };
        let [library, second] = shortest([&mut first, &mut other]);
        Times { library, second }
    }

    /// The time in which the working slots are set to 0, the shortest so far.
    pub fn zeroing(&mut self) -> f64 {
        let [now] = shortest([&mut || black_box(&mut self.working).fill(0)]);
        self.least_zeroing = self.least_zeroing.min(now);
        self.least_zeroing
    }

    /// The steps of a file, or none where it is refused, once both have read, judged and run it and answer the same.
    pub fn agreed(&mut self, name: &str, bytes: &[u8]) -> Option<u64> {
        let read: Vec<u64> = numbers::read(bytes).expect(name).iter().map(|number| number.value).collect();
        assert_eq!(self.call(Operation::Read, bytes), [1, read.len() as u64, 0, 0, 0], "{name}: numbers");
        assert_eq!(self.numbers[..read.len()], read, "{name}: numbers");
        let answer = marked(bytes);
        assert_eq!(Some(self.call(Operation::Judge, bytes)), judge_says(&answer), "{name}: verdict");
        assert_eq!(Some(self.call(Operation::Run, bytes)), run_says(&answer), "{name}: run");
        let Answer::Finished { steps, store, .. } = answer else { return None };
        assert_eq!(self.results[..store.len()], store, "{name}: store");
        Some(steps)
    }
}

fn call_second(operation: Operation, bytes: &[u8]) {
    match operation {
        Operation::Read => drop(black_box(numbers::read(bytes))),
        Operation::Judge => drop(black_box(judged(bytes))),
        Operation::Run => drop(black_box(marked(bytes))),
    }
}
