//! The bench checks of the scope page, starred and not. The program `vectors` runs their files too.

mod common;

use second::answer::{marked, unjudged, Answer};
use second::stored::Stored;

/// The example of the result lines without its store.
const EXAMPLE: &str = "1 1 2 4 4 1 128 1 0 1 0 4 0 1 5 0 1 3 0 1 1 0 5 0 0 1 0 0 1 0 5 0 1 0 6 0 9";

/// `count` times the same words, a blank after each.
fn times(count: usize, words: &str) -> String {
    format!("{words} ").repeat(count)
}

/// The bytes of a check, which have to be among the files of `vectors`.
fn stored(bytes: Vec<u8>) -> Vec<u8> {
    let stored = Stored::read().unwrap_or_else(|fault| panic!("{fault}"));
    assert!(stored.files.values().any(|file| *file == bytes), "not stored: {bytes:?}");
    bytes
}

fn bench(numbers: &str) -> Vec<u8> {
    stored(common::bench(numbers))
}

fn lines(numbers: &str) -> String {
    marked(&bench(numbers)).lines()
}

/// A program that assigns an expression of a type to its one global, which holds a number before.
fn assigning(kind: u64, expression: &str, before: u64) -> String {
    format!("1 0 1 {kind} 0 0 1 4 0 {expression} 0 {before}")
}

/// What the one global holds after the assignment; 7 before.
fn assigned(width: u64, expression: &str) -> u64 {
    match marked(&bench(&assigning(width, expression, 7))) {
        Answer::Finished { store, .. } => store[0],
        other => panic!("{other:?}"),
    }
}

#[test]
fn the_example_and_its_other_stores() {
    assert_eq!(bench(&format!("{EXAMPLE} 1 6 2")).len(), 41);
    assert_eq!(lines(&format!("{EXAMPLE} 1 6 2")), "done 4 4\n1 6 9\n");
    assert_eq!(lines(&format!("{EXAMPLE} 1 7 2")), "done 4 4\n1 7 0\n");
    assert_eq!(lines(&format!("{EXAMPLE} 0 0 0")), "done 4 4\n0 0 0\n");
    assert_eq!(lines(&format!("{EXAMPLE} 0 6 2")), "refused 11 39\n");
}

#[test]
fn the_example_with_a_wider_parameter() {
    let wider = EXAMPLE.replace("0 1 0 4 0 1", "0 1 0 5 0 1") + " 1 6 2";
    assert_eq!(lines(&wider), "refused 7 14\n");
    assert_eq!(unjudged(&bench(&wider)), Answer::Stuck);
}

#[test]
fn three_more_that_are_stuck_unjudged() {
    let sum = assigning(4, "9 0 1 4 1 1 5 1", 0);
    let condition = "1 0 0 0 0 2 1 1 1 0 0 0";
    let empty_function = "1 0 0 1 1 8 0 0 0 0 4 0 0 0";
    for stuck in [sum.as_str(), condition, empty_function] {
        assert_eq!(unjudged(&bench(stuck)), Answer::Stuck, "{stuck}");
    }
}

#[test]
fn the_smallest_files() {
    assert_eq!(lines("1 0 0 0 0 0 0"), "done 1 1\n\n");
    assert_eq!(lines("1"), "refused 4 1\n");
    assert_eq!(marked(&stored(vec![])).lines(), "refused 1 0\n");
    assert_eq!(marked(&stored(vec![0x80])).lines(), "refused 2 0\n");
    assert_eq!(marked(&stored(vec![0x80, 0x00])).lines(), "refused 3 0\n");
}

#[test]
fn arithmetic_at_the_edges() {
    assert_eq!(assigned(8, "9 0 1 8 255 1 8 1"), 0);
    assert_eq!(assigned(8, "9 2 1 8 200 1 8 2"), 144);
    assert_eq!(assigned(8, "9 6 1 8 1 1 8 8"), 0);
    assert_eq!(assigned(64, "9 1 1 64 0 1 64 1"), 18446744073709551615);
}

#[test]
fn slice_and_concatenation() {
    assert_eq!(assigned(4, "11 7 4 1 8 165"), 10);
    assert_eq!(assigned(8, "12 1 4 10 1 4 5"), 165);
}

#[test]
fn an_inout_parameter_wins_over_its_global() {
    let action = "0 1 3 8 0 3 2 1 4 0 1 8 1 1 3 0 1 8 2";
    assert_eq!(lines(&format!("1 0 1 8 1 {action} 0 4 0 1 4 0 0 9")), "done 7 7\n2\n");
}

#[test]
fn depth_32_of_expressions() {
    let nested = |nots| assigning(0, &format!("{}0 1", times(nots, "7")), 0);
    assert_eq!(lines(&nested(30)), "done 32 32\n1\n");
    assert_eq!(lines(&nested(31)), "refused 5 40\n");
}

#[test]
fn depth_32_of_statements() {
    let nested = |blocks| format!("1 0 0 0 0 {}0 0", times(blocks, "3 1"));
    assert_eq!(lines(&nested(31)), "done 32 32\n\n");
    assert_eq!(lines(&nested(32)), "refused 5 69\n");
}

#[test]
fn depth_32_of_targets_and_arguments() {
    let target = |blocks| format!("1 0 1 0 0 0 {}1 4 0 0 1 0 0", times(blocks, "3 1"));
    assert_eq!(lines(&target(30)), "done 32 32\n1\n");
    assert_eq!(lines(&target(31)), "refused 5 69\n");
    let argument = |blocks| format!("1 0 0 1 0 1 1 0 0 0 0 {}4 0 1 0 1 0", times(blocks, "3 1"));
    assert_eq!(lines(&argument(30)), "done 33 33\n\n");
    assert_eq!(lines(&argument(31)), "refused 5 76\n");
}

/// A program of nested calls without a branch, so that its steps are its ceiling.
fn with_ceiling(ceiling: u64) -> String {
    let empties = format!("0 0 0 3 62 {}", times(62, "0"));
    let call = |callable: u64| format!("4 {callable} 0");
    let calls = |callable| format!("0 0 0 3 64 {}", times(64, &call(callable)));
    let callables = format!("3 {empties} {} {}", calls(0), calls(1));
    let mut rest = ceiling - 5;
    let mut members = String::new();
    for (unit, member) in [(262_274, call(2)), (4_098, call(1)), (64, call(0)), (1, "0".to_string())] {
        let count = (rest / unit) as usize;
        rest %= unit;
        members += &format!("3 {count} {}", times(count, &member));
    }
    format!("1 0 0 {callables} 0 3 4 {members} 0")
}

#[test]
fn ceilings_of_a_million_and_one_more() {
    assert_eq!(lines(&with_ceiling(1_000_000)), "done 1000000 1000000\n\n");
    assert_eq!(lines(&with_ceiling(1_000_001)), "refused 9 0\n");
    assert_eq!(lines(&with_ceiling(123_456)), "done 123456 123456\n\n");
}

#[test]
fn a_ceiling_beyond_all_words_takes_no_time() {
    let empty = "0 0 0 0 ";
    let calls = |callable: usize| format!("0 0 0 3 64 {}", times(64, &format!("4 {callable} 0")));
    let chain: String = (0..15).map(calls).collect();
    assert_eq!(lines(&format!("1 0 0 16 {empty}{chain} 0 4 15 0 0")), "refused 9 0\n");
    assert_eq!(lines(&format!("1 0 0 16 {empty}{chain} 0 0 0")), "done 1 1\n\n");
}

#[test]
fn the_longest_file() {
    let block = |count: usize| format!("3 {count} {}", times(count, "0"));
    let file = |last| format!("1 0 0 0 0 3 62 {}{} 0", times(61, &block(64)), block(last));
    assert_eq!(bench(&file(60)).len(), 4096);
    assert_eq!(lines(&file(60)), "done 4027 4027\n\n");
    assert_eq!(lines(&file(61)), "refused 1 0\n");
}
