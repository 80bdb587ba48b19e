//! The slots that runs are lent: poisoned before a run, compared after it, and poisoned again where it wrote.

use crate::wanted::outcome;
use second::answer::Answer;
use second::library::{self, MOST_STORE};
use second::run::WORKING_SLOTS;

/// Result and working slots lent over those that are wanted: none, some, and short by one: either of them, and both.
const WAYS: [(isize, isize); 5] = [(0, 0), (3, 7), (0, -1), (-1, 0), (-1, -1)];
/// The store's length that is taken for a file without a store.
const SOME: usize = 5;
/// Slots over those that are wanted, of which 16 at least stay behind the lent ones, where no run may touch them.
const OVER: usize = 23;

/// Numbers that no run leaves.
static POISON: [u64; 2 * WORKING_SLOTS] = {
    let mut numbers = [0; 2 * WORKING_SLOTS];
    let mut index = 0;
    while index < numbers.len() {
        numbers[index] = (index as u64 + 1).wrapping_mul(0x9e37_79b9_7f4a_7c15) | 1;
        index += 1;
    }
    numbers
};

/// Slots that hold poison while they are not lent.
struct Slots {
    found: &'static [u64],
    held: Vec<u64>,
}

impl Slots {
    /// So many; another salt is another content.
    fn poisoned(count: usize, salt: usize) -> Slots {
        let found = &POISON[salt..salt + count];
        Slots { found, held: found.to_vec() }
    }

    /// Whether the numbers stand first, and all behind them is as found.
    fn hold(&self, numbers: &[u64]) -> bool {
        let (first, others) = self.held.split_at(numbers.len());
        first == numbers && *others == self.found[numbers.len()..]
    }

    /// Names the first slot of which that is not true.
    fn tell_first(&self, kind: &str, numbers: &[u64]) -> String {
        let wanted = numbers.iter().chain(&self.found[numbers.len()..]);
        let mut slots = self.held.iter().zip(wanted).enumerate();
        match slots.find(|(_, (held, wanted))| held != wanted) {
            Some((index, (held, wanted))) => format!("\n  {kind} slot {index} holds {held}, not {wanted}"),
            None => String::new(),
        }
    }

    /// Poisons the first slots again, so many.
    fn restore(&mut self, count: usize) {
        self.held[..count].copy_from_slice(&self.found[..count]);
    }
}

/// How many slots are lent.
#[derive(Clone, Copy, Debug)]
pub struct Lent {
    pub results: usize,
    pub working: usize,
}

/// A way of lending, with slots of its own.
pub struct Loan {
    over: (isize, isize),
    results: Slots,
    working: Slots,
}

impl Loan {
    /// Every way, each with another poison.
    pub fn all() -> Vec<Loan> {
        (0..WAYS.len()).map(Loan::new).collect()
    }

    fn new(way: usize) -> Loan {
        Loan {
            over: WAYS[way],
            results: Slots::poisoned(MOST_STORE + OVER, way),
            working: Slots::poisoned(WORKING_SLOTS + OVER, WAYS.len() + way),
        }
    }

    /// What is lent for a file of this answer; none where no slot can be left out.
    pub fn lent(&self, answer: &Answer) -> Option<Lent> {
        let length = match answer {
            Answer::Finished { store, .. } => store.len(),
            _ => SOME,
        };
        let results = length.checked_add_signed(self.over.0)?;
        let working = WORKING_SLOTS.checked_add_signed(self.over.1)?;
        Some(Lent { results, working })
    }

    /// Runs the file, and tells how that differs from the second interpreter's answer, if it does.
    pub fn difference(&mut self, bytes: &[u8], answer: &Answer, lent: Lent) -> Option<String> {
        let Loan { results, working, .. } = self;
        let told = library::run(bytes, &mut results.held, lent.results, &mut working.held, lent.working);
        let wanted = outcome(answer, lent);
        if let Some(wanted) = &wanted {
            if told == wanted.answer && results.hold(wanted.results) && working.hold(wanted.working) {
                results.restore(wanted.results.len());
                working.restore(wanted.working.len());
                return None;
            }
        }
        let mut text = format!("{lent:?}: the run says {told:?}, the second interpreter {answer:?}");
        if let Some(wanted) = &wanted {
            text += &results.tell_first("result", wanted.results);
            text += &working.tell_first("working", wanted.working);
        }
        results.restore(results.found.len());
        working.restore(working.found.len());
        Some(text)
    }
}
