//! Every file that passes refusals 1 to 5 is shown, and the text makes the same bytes again.

mod wild;

use second::answer::{judged, Refusal};
use second::example;
use second::generate::bench_file;
use second::numbers::{self, MOST_BYTES};
use second::shape::{self, LATEST};
use sheet::make::make;
use sheet::show::show;
use wild::wild_file;

/// Whether a file passes refusals 1 to 5.
fn passes(bytes: &[u8]) -> bool {
    numbers::read(bytes).is_ok_and(|numbers| shape::read(&numbers, bytes.len()).is_ok())
}

/// Show a file and make it again; whether it could be shown.
fn goes_round(name: &str, bytes: &[u8]) -> bool {
    let Ok(sheet) = show(bytes) else {
        assert!(!passes(bytes), "{name} is not shown");
        return false;
    };
    match make(&sheet.text) {
        Ok(made) => assert_eq!(made, bytes, "{name}\n{}", sheet.text),
        Err(fault) => panic!("{name}: {}\n{}", fault.told("shown", &sheet.text), sheet.text),
    }
    true
}

#[test]
fn the_corpus_goes_round() {
    let corpus = example::corpus().expect("the corpus");
    let shown = corpus.iter().filter(|(name, example)| goes_round(name, &example.bytes)).count();
    assert!(shown > 500, "{shown}");
}

/// Generated files, damaged ones among them; how many are shown, and how many of these the judge refuses.
fn generated(seed: u64, count: u64, largest: usize) -> (u64, u64) {
    let (mut shown, mut refused) = (0, 0);
    for number in 0..count {
        let bytes = bench_file(seed, number, largest);
        if goes_round(&format!("file {number} of seed {seed}"), &bytes) {
            shown += 1;
            refused += u64::from(matches!(judged(&bytes), Err(Refusal { number: 6..=12 | 16, .. })));
        }
    }
    (shown, refused)
}

#[test]
fn small_generated_files_go_round() {
    let (shown, refused) = generated(11, 30_000, 160);
    assert!(shown > 22_500 && refused > 6_000, "{shown} shown, {refused} of them refused");
}

#[test]
fn large_generated_files_go_round() {
    let (shown, refused) = generated(12, 3_000, MOST_BYTES);
    assert!(shown > 2_250 && refused > 450, "{shown} shown, {refused} of them refused");
}

#[test]
fn files_that_keep_to_no_rule_of_form_go_round() {
    for version in 1..=LATEST {
        for seed in 0..20_000 {
            let name = format!("wild file {seed} of version {version}");
            assert!(goes_round(&name, &wild_file(seed, version)), "{name} does not pass");
        }
    }
}
