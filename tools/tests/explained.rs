//! Explanations of files that are refused and of files that run, with the second interpreter's answers for the judge's.

mod wild;

use second::answer::{marked, Answer};
use second::example;
use second::generate::bench_file;
use second::numbers::MOST_BYTES;
use second::shape::LATEST;
use sheet::explain::explain;
use sheet::paint::Paint;
use wild::wild_file;

fn explanation(bytes: &[u8]) -> String {
    explain(bytes, &marked(bytes), Paint::NONE)
}

/// The corpus, generated files and files that keep to few rules.
fn files() -> Vec<Vec<u8>> {
    let corpus = example::corpus().expect("the corpus");
    let mut files: Vec<Vec<u8>> = corpus.into_iter().map(|(_, example)| example.bytes).collect();
    files.extend((0..8_000).map(|number| bench_file(21, number, 160)));
    files.extend((0..800).map(|number| bench_file(22, number, MOST_BYTES)));
    for version in 1..=LATEST {
        files.extend((0..4_000).map(|seed| wild_file(seed, version)));
    }
    files
}

/// Files that the second interpreter refuses with such numbers, and the numbers.
fn refused(least: u8, most: u8) -> Vec<(u8, Vec<u8>)> {
    let number = |bytes: &Vec<u8>| match marked(bytes) {
        Answer::Refused(refusal) => Some(refusal.number),
        _ => None,
    };
    let numbered = files().into_iter().filter_map(|bytes| Some((number(&bytes)?, bytes)));
    numbered.filter(|(number, _)| (least..=most).contains(number)).collect()
}

#[test]
fn an_explanation_begins_with_the_result_lines() {
    for bytes in files() {
        let lines = marked(&bytes).lines();
        assert!(explanation(&bytes).starts_with(&lines), "{lines}");
    }
}

#[test]
fn each_refusal_of_a_file_with_a_text_has_a_mark_in_it() {
    let files = refused(6, 16);
    assert!(files.len() > 4_000, "{}", files.len());
    for (_, bytes) in files {
        let explanation = explanation(&bytes);
        let last = explanation.lines().last().expect("a line");
        assert!(last.trim_start().chars().all(|mark| mark == '^') && last.contains('^'), "{explanation}");
    }
}

#[test]
fn each_refusal_from_6_to_8_has_a_rule_of_its_own() {
    let general = ["what is named", "types, widths, literals", "each construct stands"];
    for (number, bytes) in refused(6, 8) {
        let explanation = explanation(&bytes);
        let sentence = format!("Refusal {number}: {}", general[usize::from(number) - 6]);
        assert!(
            explanation.contains(&format!("Refusal {number}: ")) && !explanation.contains(&sentence),
            "{explanation}"
        );
    }
}

#[test]
fn each_refusal_from_1_to_5_says_what_is_expected() {
    for (number, bytes) in refused(1, 5) {
        let explanation = explanation(&bytes);
        let wanted = if number == 1 { "This file has " } else { "\nExpected: " };
        assert!(explanation.contains(wanted) && !explanation.contains("Expected: ."), "{explanation}");
    }
}

#[test]
fn a_run_shows_each_number_of_the_store_once() {
    for bytes in files() {
        if let Answer::Finished { store, .. } = marked(&bytes) {
            let explanation = explanation(&bytes);
            let rows = explanation.lines().filter(|line| line.starts_with("    g")).count();
            assert_eq!(rows, store.len(), "{explanation}");
        }
    }
}

#[test]
fn changed_numbers_of_the_store_are_marked() {
    let text = "header h { bit<8> x; } h a; h b; bit<8> c; bool d;
        apply { a.setInvalid(); b.setValid(); d = true; exit; } entries { }
        store { a = valid { 7 }; b = invalid { 0 }; c = 5; d = false; }";
    let bytes = sheet::make::make(text).expect("a text that can be read");
    let expected = "exit 6 6\n0 0 1 0 5 1\nAccepted. Ceiling: 6. Steps: 6. End: by exit.\n
    store    first    final
    g0       valid  invalid  changed
    g0.f0        7        0  changed
    g1     invalid    valid  changed
    g1.f0        0        0
    g2           5        5
    g3       false     true  changed\n";
    assert_eq!(explanation(&bytes), expected);
}

#[test]
fn the_mark_is_under_the_part_at_fault() {
    let text = "bit<8> x; apply { if (x == 8w1) x = x + ~4w1; } entries { } store { x = 0; }";
    let bytes = sheet::make::make(text).expect("a text that can be read");
    let expected = "refused 7 17\nRefusal 7: '+' takes bits of one width.\nAt byte 17 of 28:\n
    apply {
        ...
            g0 = g0 + ~4w1;
                 ^^^^^^^^^\n";
    assert_eq!(explanation(&bytes), expected);
}
