//! What holds of every bench file, on generated ones.

use second::answer::{judged, marked, unjudged, Answer, Refusal, Signal};
use second::census;
use second::generate::{bench_file, deepest_files};
use second::inputs::{store_numbers, store_of};
use second::numbers::{Number, MOST_BYTES};
use second::shape::LATEST;
use second::tree::Program;
use std::collections::{BTreeMap, BTreeSet};

const SEED: u64 = 2026;
const FILES: u64 = 5000;

fn files() -> impl Iterator<Item = Vec<u8>> {
    (0..FILES).map(|number| bench_file(SEED, number, MOST_BYTES))
}

/// Whether the numbers are a store of the program, with zero fields in each invalid header.
fn is_store(program: &Program, store: &[u64]) -> bool {
    let numbers: Vec<Number> = store.iter().map(|&value| Number { value, place: 0 }).collect();
    store_of(program, &numbers).is_some_and(|read| store_numbers(&read) == store)
}

#[test]
fn a_judged_file_is_never_stuck_and_stays_within_its_ceiling() {
    for bytes in files() {
        let Ok((program, _, judged_ceiling)) = judged(&bytes) else { continue };
        match marked(&bytes) {
            Answer::Finished { steps, ceiling, store, .. } => {
                assert_eq!(ceiling, judged_ceiling);
                assert!(1 <= steps && steps <= ceiling && ceiling <= 1_000_000, "{bytes:?}");
                assert!(is_store(&program, &store), "{bytes:?}");
            }
            other => panic!("{other:?} of {bytes:?}"),
        }
    }
}

#[test]
fn the_deepest_files_are_done_after_as_many_steps_as_they_may_take() {
    for (name, bytes) in deepest_files() {
        let (program, _, ceiling) = judged(&bytes).unwrap_or_else(|refusal| panic!("{name}: {refusal:?}"));
        assert_eq!(program.callables.len(), 16, "{name}");
        match marked(&bytes) {
            Answer::Finished { signal: Signal::Done, steps, .. } => assert_eq!(steps, ceiling, "{name}"),
            other => panic!("{name}: {other:?}"),
        }
    }
}

#[test]
fn unjudged_a_good_file_answers_the_same_without_its_ceiling() {
    for bytes in files() {
        if let Answer::Finished { signal, steps, store, .. } = marked(&bytes) {
            assert_eq!(unjudged(&bytes), Answer::Finished { signal, steps, ceiling: 0, store });
        }
    }
}

#[test]
fn unjudged_the_first_five_refusals_are_the_judges_and_no_other_is_given() {
    for bytes in files() {
        match (marked(&bytes), unjudged(&bytes)) {
            (Answer::Refused(Refusal { number: 1..=5, place }), answer) => {
                assert!(matches!(answer, Answer::Refused(refusal) if refusal.place == place), "{bytes:?}");
            }
            (_, answer) => assert!(!matches!(answer, Answer::Refused(_)), "{bytes:?}"),
        }
    }
}

#[test]
fn what_is_stuck_is_refused() {
    for bytes in files().filter(|bytes| unjudged(bytes) == Answer::Stuck) {
        let answer = marked(&bytes);
        assert!(matches!(answer, Answer::Refused(Refusal { number: 6..=11 | 16, .. })), "{answer:?} of {bytes:?}");
    }
}

/// The word of a signal, or a refusal's number.
fn name(answer: &Answer) -> String {
    match answer {
        Answer::Refused(refusal) => refusal.number.to_string(),
        Answer::Finished { signal: Signal::Done, .. } => "done".to_string(),
        Answer::Finished { signal: Signal::Exit, .. } => "exit".to_string(),
        Answer::Finished { signal: Signal::Reject(_), .. } => "reject".to_string(),
        other => panic!("{other:?}"),
    }
}

#[test]
fn every_refusal_and_every_signal_occur_often() {
    let mut counts: BTreeMap<String, u64> = BTreeMap::new();
    for bytes in files() {
        *counts.entry(name(&marked(&bytes))).or_default() += 1;
    }
    let refusals = (1..=12).chain([16]).map(|number| number.to_string());
    for name in refusals.chain(["done", "exit", "reject"].map(str::to_string)) {
        assert!(counts.get(&name).is_some_and(|&count| count >= 20), "{name}: {counts:?}");
    }
}

#[test]
fn every_error_of_the_parser_occurs_often() {
    let mut counts: BTreeMap<u64, u64> = BTreeMap::new();
    for bytes in files() {
        if let Answer::Finished { signal: Signal::Reject(error), .. } = marked(&bytes) {
            *counts.entry(error).or_default() += 1;
        }
    }
    assert!((1..=3).all(|error| counts.get(&error).is_some_and(|&count| count >= 20)), "{counts:?}");
}

#[test]
fn every_construct_of_a_version_occurs_in_good_files_of_it() {
    let mut seen: BTreeMap<u64, BTreeSet<String>> = BTreeMap::new();
    for (program, ..) in files().filter_map(|bytes| judged(&bytes).ok()) {
        seen.entry(program.version).or_default().extend(census::of(&program));
    }
    assert_eq!(seen, (1..=LATEST).map(|version| (version, census::all(version))).collect());
}

#[test]
fn half_of_the_files_are_of_version_1() {
    let count = files().filter(|bytes| bytes.first() == Some(&1)).count() as u64;
    assert!((FILES * 2 / 5..FILES * 3 / 5).contains(&count), "{count}");
}
