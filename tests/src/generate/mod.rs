//! Random bench files: mostly well formed, the others with faults.

mod body;
mod damage;
mod deepest;
mod draft;
mod inputs;
mod plan;
mod program;
mod random;
mod scope;
mod states;

use crate::numbers::MOST_BYTES;
use crate::shape::LATEST;
pub use deepest::deepest_files;
use draft::Draft;
use program::Builder;
pub use random::Random;

/// The bench file of a seed and a number; `largest` limits its bytes, where no fault lengthens it. As many files are made
/// for one version as for the other, whatever damage makes of them.
pub fn bench_file(seed: u64, number: u64, largest: usize) -> Vec<u8> {
    let start = Random::new(seed).word() ^ number;
    let version = Random::new(!start).between(1, LATEST);
    let mut random = Random::new(start);
    let mut draft = new_draft(&mut random, largest, version);
    let faults = random.choose(&[0, 0, 0, 0, 0, 0, 0, 1, 1, 2]) + u64::from(random.chance(5));
    for _ in 0..faults {
        if !draft.is_empty() {
            damage::damage_numbers(&mut random, &mut draft);
        }
    }
    let mut bytes = damage::bytes(&draft);
    if !bytes.is_empty() && random.chance(12) {
        damage::damage_bytes(&mut random, &mut bytes);
    }
    bytes
}

/// A file of at most so many bytes, well formed but for slips.
fn new_draft(random: &mut Random, largest: usize, version: u64) -> Draft {
    let most = largest.min(MOST_BYTES);
    loop {
        let plan = plan::plan(random, most, version);
        let mut builder = Builder::new(random, plan, version);
        builder.program();
        builder.inputs();
        let draft = builder.draft;
        if damage::bytes(&draft).len() <= most {
            return draft;
        }
    }
}
