//! Version 2 beside version 1: what a reject is told as, and what a parser adds to a program of version 1.

mod common;

use common::bench;
use second::answer::{judged, marked, Answer, Signal};
use second::ceiling::MOST_STEPS;
use second::example;
use second::generate::bench_file;
use second::numbers::{self, MOST_BYTES};
use second::tree::Program;

/// One state, which does nothing and accepts: two steps.
const PARSER: [u64; 3] = [1, 0, 1];
const PARSER_STEPS: u64 = 2;

#[test]
fn a_reject_as_numbers_has_its_error_first() {
    let file = bench("2   0   2 8 0   0   0   1   1 4 0 1 8 9 2 44   0   0   5 1   0");
    let answer = marked(&file);
    let store = vec![9, 1];
    assert_eq!(answer, Answer::Finished { signal: Signal::Reject(44), steps: 3, ceiling: 4, store });
    assert_eq!(answer.as_numbers(), Some(vec![4, 44, 3, 4, 9, 1]));
    assert_eq!(answer.lines(), "reject 44 3 4\n9 1\n");
}

/// A file of version 1 as one of version 2, with a parser that accepts at once and an empty packet.
fn behind_parser(program: &Program, bytes: &[u8]) -> Vec<u8> {
    let mut list = vec![2];
    for number in &numbers::read(bytes).expect("an accepted file has good numbers")[1..] {
        if number.place == program.apply_body.place {
            list.extend(PARSER);
        }
        list.push(number.value);
    }
    list.push(0);
    numbers::write(&list)
}

#[test]
fn a_parser_that_accepts_at_once_changes_nothing_but_the_steps() {
    let corpus = example::corpus().expect("the corpus").into_iter().map(|(_, example)| example.bytes);
    let generated = (0..3000).map(|number| bench_file(2027, number, 400));
    let mut compared = 0;
    for bytes in corpus.chain(generated) {
        let Ok((program, ..)) = judged(&bytes) else { continue };
        let Answer::Finished { signal, steps, ceiling, store } = marked(&bytes) else { panic!("{bytes:?}") };
        let file = behind_parser(&program, &bytes);
        if program.has_parser() || ceiling + PARSER_STEPS > MOST_STEPS || file.len() > MOST_BYTES {
            continue;
        }
        let (steps, ceiling) = (steps + PARSER_STEPS, ceiling + PARSER_STEPS);
        assert_eq!(marked(&file), Answer::Finished { signal, steps, ceiling, store }, "{bytes:?}");
        compared += 1;
    }
    assert!(compared > 800, "{compared}");
}
