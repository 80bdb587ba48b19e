//! The proved operations, as C calls them, and what they have to answer by an answer of this interpreter. No part of the
//! interpreter: it is what the interpreter is set beside.

use crate::answer::{Answer, Refusal};

/// The five numbers of a call's answer.
pub type Numbers = [u64; 5];

/// How many numbers a store has at most: a valid mark and 16 fields for each of 32 headers.
pub const MOST_STORE: usize = 544;

/// What the numbers are before a call; no call leaves one of them so.
const POISON: Numbers = [u64::MAX; 5];

#[link(name = "calls", kind = "static")]
extern "C" {
    fn nentuvar_read(bytes: *const u8, length: usize, slots: *mut u64, count: usize, answer: *mut Numbers);
    fn nentuvar_judge(bytes: *const u8, length: usize, answer: *mut Numbers);
    fn nentuvar_run(
        bytes: *const u8,
        length: usize,
        results: *mut u64,
        count: usize,
        working: *mut u64,
        room: usize,
        answer: *mut Numbers,
    );
}

pub fn read(bytes: &[u8], slots: &mut [u64]) -> Numbers {
    let mut answer = POISON;
    // A call reads and writes only what it is lent, by the lengths that it is given.
    unsafe { nentuvar_read(bytes.as_ptr(), bytes.len(), slots.as_mut_ptr(), slots.len(), &mut answer) };
    answer
}

pub fn judge(bytes: &[u8]) -> Numbers {
    let mut answer = POISON;
    unsafe { nentuvar_judge(bytes.as_ptr(), bytes.len(), &mut answer) };
    answer
}

/// Run with the first `count` result slots and the first `room` working slots.
pub fn run(bytes: &[u8], results: &mut [u64], count: usize, working: &mut [u64], room: usize) -> Numbers {
    assert!(count <= results.len() && room <= working.len());
    let mut answer = POISON;
    unsafe {
        nentuvar_run(bytes.as_ptr(), bytes.len(), results.as_mut_ptr(), count, working.as_mut_ptr(), room, &mut answer);
    }
    answer
}

/// What a refusal is told as.
pub fn refused(refusal: Refusal) -> Numbers {
    [0, u64::from(refusal.number), refusal.place as u64, 0, 0]
}

/// Whether the judge gives a refusal of this number.
fn is_judges(refusal: &Refusal) -> bool {
    matches!(refusal.number, 1..=12 | 16)
}

/// What the judge has to answer; none if this is no answer to a judged file.
pub fn judge_says(answer: &Answer) -> Option<Numbers> {
    match answer {
        Answer::Refused(refusal) if is_judges(refusal) => Some(refused(*refusal)),
        Answer::Finished { ceiling, store, .. } => Some([1, *ceiling, store.len() as u64, 0, 0]),
        _ => None,
    }
}

/// What a run with all the slots that it asks for has to answer; none if this is no answer to a judged file.
pub fn run_says(answer: &Answer) -> Option<Numbers> {
    match answer {
        Answer::Refused(refusal) if is_judges(refusal) => Some(refused(*refusal)),
        Answer::Finished { signal, steps, ceiling, store } => {
            let mut numbers = [0; 5];
            let told = [signal.as_numbers(), vec![*steps, *ceiling, store.len() as u64]].concat();
            numbers[..told.len()].copy_from_slice(&told);
            Some(numbers)
        }
        _ => None,
    }
}
