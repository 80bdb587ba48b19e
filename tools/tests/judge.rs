//! The C calls of the proved judge and runner answer what the second interpreter does, and `explain` tells it.
#![cfg(feature = "library")]

use second::answer::marked;
use second::example;
use second::generate::bench_file;
use second::numbers::MOST_BYTES;
use sheet::explain::explain;
use sheet::paint::Paint;
use sheet::verdict;
use std::process::Command;

#[test]
fn the_answers_agree_on_the_corpus() {
    for (name, example) in example::corpus().expect("the corpus") {
        assert_eq!(verdict::answer(&example.bytes), marked(&example.bytes), "{name}");
    }
}

#[test]
fn the_answers_agree_on_generated_files() {
    for number in 0..2_000 {
        let bytes = bench_file(31, number, if number % 4 == 0 { MOST_BYTES } else { 160 });
        assert_eq!(verdict::answer(&bytes), marked(&bytes), "file {number}");
    }
}

#[test]
fn explain_prints_the_explanation_without_colours() {
    for name in ["apply-example", "types-sum-of-two-widths", "read-last-byte-zero", "entries-position"] {
        let file = format!("{}/../tests/corpus/{name}.bench", env!("CARGO_MANIFEST_DIR"));
        let bytes = second::example::read(&file).expect("the example").bytes;
        let output = Command::new(env!("CARGO_BIN_EXE_sheet")).args(["explain", &file]).output().expect("it runs");
        assert!(output.status.success() && output.stderr.is_empty());
        assert_eq!(String::from_utf8_lossy(&output.stdout), explain(&bytes, &marked(&bytes), Paint::NONE));
    }
}
