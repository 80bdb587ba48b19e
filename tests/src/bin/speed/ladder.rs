//! Files whose runs take as many steps as are wanted: an apply body that calls an action that calls an action that does
//! the work, each so many times.

use crate::constructs::*;
use second::answer::judged;

/// How often the apply body calls, the action that it calls, and the one below.
type Counts = [usize; 3];

/// Work that a statement does: what stands in the file for it, and the statement, which sees three locals of 32 bits.
pub struct Work {
    pub header_types: Vec<Numbers>,
    pub globals: Numbers,
    pub callables: Vec<Numbers>,
    pub statement: Numbers,
    pub store: Numbers,
}

impl Work {
    /// The file whose ceiling is nearest below the steps that are wanted.
    pub fn file(&self, wanted: u64) -> Vec<u8> {
        let single = self.counted([1; 3]);
        let (_, _, ceiling) = judged(&single).expect("the work is well formed");
        let statement = ceiling - steps([1; 3], 0);
        let upto = 1..=MEMBERS;
        let pairs = upto.clone().flat_map(|outer| upto.clone().map(move |middle| [outer, middle]));
        let all = pairs.flat_map(|[outer, middle]| upto.clone().map(move |inner| [outer, middle, inner]));
        let within = all.filter(|&counts| steps(counts, statement) <= wanted);
        self.counted(within.max_by_key(|&counts| steps(counts, statement)).expect("the work is short enough"))
    }

    fn counted(&self, [outer, middle, inner]: Counts) -> Vec<u8> {
        let first = self.callables.len() as u64;
        let below = action(&[], &[32; 3], block(&vec![self.statement.clone(); inner]));
        let above = action(&[], &[], block(&vec![call(first, &[]); middle]));
        let bench = Bench {
            header_types: self.header_types.clone(),
            globals: self.globals.clone(),
            callables: [self.callables.clone(), vec![below, above]].concat(),
            body: block(&vec![call(first + 1, &[]); outer]),
            store: self.store.clone(),
            ..Bench::default()
        };
        bench.bytes()
    }
}

/// The steps where the statement takes so many.
fn steps([outer, middle, inner]: Counts, statement: u64) -> u64 {
    let below = 1 + inner as u64 * statement;
    let above = 1 + middle as u64 * (1 + below);
    1 + outer as u64 * (1 + above)
}
