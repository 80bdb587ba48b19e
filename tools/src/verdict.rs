//! What the proved judge and runner answer, through their C calls. Everything else here takes the answer as given.

use second::answer::{Answer, Refusal, Signal};

/// What a call answers: 1 (done) or 2 (exit), steps, ceiling, store length and 0; 4 (reject), its error, steps, ceiling and
/// store length; or 0, a refusal's number, its place.
pub type Words = [u64; 5];

/// The answer that a call's words stand for, with the result slots that it filled.
pub fn answer_of(words: Words, results: &[u64]) -> Answer {
    let (signal, [steps, ceiling, length]) = match words {
        [0, number, place, ..] => return Answer::Refused(Refusal::at(number as u8, place as usize)),
        [4, error, run @ ..] => (Signal::Reject(error), run),
        [1, steps, ceiling, length, _] => (Signal::Done, [steps, ceiling, length]),
        [_, steps, ceiling, length, _] => (Signal::Exit, [steps, ceiling, length]),
    };
    Answer::Finished { signal, steps, ceiling, store: results[..length as usize].to_vec() }
}

/// The judge's refusal of a file, or the runner's answer.
#[cfg(feature = "library")]
pub fn answer(bytes: &[u8]) -> Answer {
    use second::library::{run, MOST_STORE};
    use second::run::WORKING_SLOTS;
    let mut results = [0; MOST_STORE];
    let mut working = vec![0; WORKING_SLOTS];
    answer_of(run(bytes, &mut results, MOST_STORE, &mut working, WORKING_SLOTS), &results)
}

#[cfg(test)]
mod tests {
    use super::answer_of;
    use second::answer::{Answer, Refusal, Signal};

    #[test]
    fn words_stand_for_answers() {
        assert_eq!(answer_of([0, 7, 14, 0, 0], &[]), Answer::Refused(Refusal::at(7, 14)));
        let done = Answer::Finished { signal: Signal::Done, steps: 4, ceiling: 5, store: vec![1, 6, 9] };
        assert_eq!(answer_of([1, 4, 5, 3, 0], &[1, 6, 9, 0, 0]), done);
        let exit = Answer::Finished { signal: Signal::Exit, steps: 1, ceiling: 1, store: vec![] };
        assert_eq!(answer_of([2, 1, 1, 0, 0], &[7]), exit);
        let reject = Answer::Finished { signal: Signal::Reject(255), steps: 2, ceiling: 3, store: vec![5] };
        assert_eq!(answer_of([4, 255, 2, 3, 1], &[5, 7]), reject);
    }
}
