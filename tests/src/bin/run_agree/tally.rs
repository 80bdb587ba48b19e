//! Files compared, and what came of it.

use crate::lent::Loan;
use second::answer::{marked, Answer, Signal};
use second::library::{judge, judge_says};
use std::collections::BTreeMap;
use std::fmt::Display;

/// How often each answer occurred, how many files were judged, how often they were run, and how often that differed.
pub struct Tally {
    loans: Vec<Loan>,
    answers: BTreeMap<(&'static str, u8), u64>,
    files: u64,
    runs: u64,
    differences: u64,
}

impl Tally {
    pub fn new() -> Tally {
        Tally { loans: Loan::all(), answers: BTreeMap::new(), files: 0, runs: 0, differences: 0 }
    }

    /// Judges the file and runs it in every way of lending.
    pub fn compare(&mut self, name: &dyn Display, bytes: &[u8]) {
        let answer = marked(bytes);
        *self.answers.entry(kind(&answer)).or_default() += 1;
        self.files += 1;
        let told = judge(bytes);
        if judge_says(&answer) != Some(told) {
            self.differences += 1;
            println!("{name}: the judge says {told:?}, the second interpreter {answer:?}");
        }
        for loan in &mut self.loans {
            let Some(lent) = loan.lent(&answer) else { continue };
            self.runs += 1;
            if let Some(difference) = loan.difference(bytes, &answer, lent) {
                self.differences += 1;
                println!("{name}, {difference}");
            }
        }
    }

    pub fn add(&mut self, other: Tally) {
        for (answer, count) in other.answers {
            *self.answers.entry(answer).or_default() += count;
        }
        self.files += other.files;
        self.runs += other.runs;
        self.differences += other.differences;
    }

    pub fn print(&self) {
        for ((word, number), count) in &self.answers {
            match number {
                0 => println!("{word}: {count}"),
                _ => println!("{word} {number:2}: {count}"),
            }
        }
        println!("{} files judged, {} runs, {} differences", self.files, self.runs, self.differences);
    }

    /// Whether there was something to compare and no difference.
    pub fn agrees(&self) -> bool {
        self.differences == 0 && self.runs > 0
    }
}

/// The answer's word, and its number if it is a refusal.
fn kind(answer: &Answer) -> (&'static str, u8) {
    match answer {
        Answer::Refused(refusal) => ("refused", refusal.number),
        Answer::Finished { signal: Signal::Done, .. } => ("done", 0),
        Answer::Finished { signal: Signal::Exit, .. } => ("exit", 0),
        Answer::Finished { signal: Signal::Reject(_), .. } => ("reject", 0),
        Answer::Stuck => ("stuck", 0),
        Answer::TooLong => ("too long", 0),
    }
}
