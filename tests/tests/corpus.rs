//! Each example of the corpus has the answer it states.

use second::answer::judged;
use second::census;
use second::example::{self, Example};
use second::shape::LATEST;
use std::collections::BTreeSet;

fn corpus() -> Vec<(String, Example)> {
    example::corpus().unwrap_or_else(|fault| panic!("{fault}"))
}

#[test]
fn each_example_has_its_answer() {
    let mut differences = Vec::new();
    for (name, example) in corpus() {
        let answer = example.answer().lines();
        if answer != example.expected {
            differences.push(format!("{name}: {}\nexpected {}answered {answer}", example.about, example.expected));
        }
    }
    assert!(differences.is_empty(), "\n{}", differences.join("\n"));
}

#[test]
fn the_corpus_has_every_construct_in_a_file_that_runs() {
    let good = corpus().into_iter().filter_map(|(_, example)| judged(&example.bytes).ok());
    let seen: BTreeSet<String> = good.flat_map(|(program, ..)| census::of(&program)).collect();
    assert_eq!(seen, census::all(LATEST));
}

#[test]
fn the_corpus_has_every_refusal_and_every_signal() {
    let first_words = |example: &Example| example.expected.split_whitespace().take(2).collect::<Vec<_>>().join(" ");
    let seen: BTreeSet<String> = corpus().iter().map(|(_, example)| first_words(example)).collect();
    for refusal in (1..=12).chain([16]) {
        assert!(seen.contains(&format!("refused {refusal}")), "no refusal {refusal}");
    }
    for signal in ["done", "exit", "reject"] {
        assert!(seen.iter().any(|words| words.starts_with(signal)), "no {signal}");
    }
}

#[test]
fn what_is_stuck_in_the_corpus_is_refused_by_the_judge() {
    for (name, example) in corpus() {
        assert_eq!(example.expected == "stuck\n", name.starts_with("stuck-"), "{name}");
        assert!(!name.starts_with("stuck-") || judged(&example.bytes).is_err(), "{name}");
    }
}
