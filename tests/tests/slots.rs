//! Refusal 14: the store's slots and those of the calls at work, with few working slots.

mod common;

use common::bench;
use second::answer::{marked_within, Answer, Refusal};
use second::run::Limits;

/// Whether the file finishes with so many working slots; if not, it is refused 14.
fn finishes(numbers: &str, slots: usize) -> bool {
    let limits = Limits { slots, ..Limits::default() };
    match marked_within(&bench(numbers), limits) {
        Answer::Finished { .. } => true,
        Answer::Refused(Refusal { number: 14, place: 0 }) => false,
        other => panic!("{other:?}"),
    }
}

/// Asserts that the file finishes with so many working slots and with no fewer.
fn takes(numbers: &str, slots: usize) {
    assert!(finishes(numbers, slots));
    assert!(!finishes(numbers, slots - 1));
}

#[test]
fn a_call_takes_a_slot_for_each_parameter_and_local() {
    let file = "1 0 1 8 1   0 2 1 8 2 8 1 8   0   0   4 0 2 1 8 1 4 0   0   5";
    takes(file, 4);
}

#[test]
fn slots_are_given_back_when_a_body_ends() {
    let file = "1 0 1 8 1   0 0 2 8 8   0   0   3 3 4 0 0 4 0 0 4 0 0   0   5";
    takes(file, 3);
}

#[test]
fn a_call_works_above_its_caller() {
    let inner = "0 0 1 8   0";
    let outer = "0 0 2 8 8   4 0 0";
    let file = format!("1 0 1 8 2   {inner}   {outer}   0   4 1 0   0   5");
    takes(&file, 4);
}

#[test]
fn arguments_are_worked_out_before_the_slots_are_taken() {
    let function = "1 8 1 1 8 2 8 8   6 3 0";
    let file = format!("1 0 1 8 1   {function}   0   1 4 0 13 0 1 13 0 1 1 8 7   0   5");
    takes(&file, 4);
}

#[test]
fn a_header_takes_a_slot_for_its_mark_and_one_for_each_field() {
    let file = "1 1 2 8 8 1 128 1   0 1 0 8 0   0   0   4 0 1 1 8 7   0   1 5 6";
    takes(file, 4);
}

#[test]
fn a_tables_action_takes_slots_too() {
    let file = "1 0 1 8 1   0 1 0 8 1 8   0   1   1 0 4 0   1 0   0 1 3   5 0   0   5";
    takes(file, 3);
}

#[test]
fn a_run_without_calls_needs_the_stores_slots_alone() {
    assert!(finishes("1 0 1 8 0 0   1 4 0 1 8 7   0   5", 1));
}
