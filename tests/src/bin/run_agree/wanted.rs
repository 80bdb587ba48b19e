//! What the verified run has to answer and to leave, by the second interpreter's answer and the slots that are lent.

use crate::lent::Lent;
use second::answer::{Answer, Refusal};
use second::library::{refused, run_says, Numbers};
use second::run::WORKING_SLOTS;

static ZEROS: [u64; WORKING_SLOTS] = [0; WORKING_SLOTS];

/// The numbers of a run's answer, and what the first slots hold after it; the others are as found.
pub struct Outcome<'a> {
    pub answer: Numbers,
    pub results: &'a [u64],
    pub working: &'a [u64],
}

/// None if this is no answer to a judged file.
pub fn outcome(answer: &Answer, lent: Lent) -> Option<Outcome<'_>> {
    let told = run_says(answer)?;
    Some(match answer {
        Answer::Finished { store, .. } if lent.results < store.len() || lent.working < WORKING_SLOTS => {
            untouched(refused(Refusal::at(13, 0)))
        }
        Answer::Finished { store, .. } => Outcome { answer: told, results: store, working: &ZEROS },
        _ => untouched(told),
    })
}

fn untouched(answer: Numbers) -> Outcome<'static> {
    Outcome { answer, results: &[], working: &[] }
}
