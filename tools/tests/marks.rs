//! Each mark of a sheet stands under the text of the number whose place it has.

mod wild;

use second::example;
use second::generate::bench_file;
use second::numbers;
use second::shape::LATEST;
use sheet::show::{show, Mark, Part};
use std::collections::BTreeMap;
use wild::wild_file;

/// The tag that a part is, if it is a tag.
fn tags(part: Part) -> &'static [u64] {
    match part {
        Part::BoolLiteral => &[0],
        Part::BitsLiteral => &[1],
        Part::Variable => &[2, 3, 4],
        Part::Field => &[5],
        Part::Valid => &[6],
        Part::Not => &[7],
        Part::Complement => &[8],
        Part::Binary(_) => &[9],
        Part::Cast => &[10],
        Part::Slice => &[11],
        Part::Concatenation => &[12],
        Part::FunctionCall => &[13],
        Part::Assign => &[1],
        Part::If => &[2],
        Part::Call => &[4],
        Part::Apply => &[5],
        Part::ReturnValue => &[6],
        Part::Return => &[7],
        Part::Exit => &[8],
        Part::SetValid => &[9, 10],
        Part::Extract => &[11],
        Part::Verify => &[12],
        Part::CallInState => &[4, 13],
        Part::BarredInState => &[5, 6, 7, 8],
        _ => &[],
    }
}

/// The number that a text says, with or without a letter before it.
fn said(text: &str) -> Option<u64> {
    match text {
        "true" | "valid" => Some(1),
        "false" | "invalid" => Some(0),

        "exact" => Some(0),
        "lpm" => Some(1),
        "ternary" => Some(2),
        _ => match text.strip_prefix("0x") {
            Some(digits) => u64::from_str_radix(digits, 16).ok(),
            None => text.trim_start_matches("actions[").trim_start_matches("mark ").trim_end_matches(']').parse().ok(),
        },
    }
}

/// Whether the marked text says the number.
fn agrees(mark: &Mark, text: &str, number: u64) -> bool {
    match mark.part {
        Part::GlobalType => match text.strip_prefix("bit<") {
            Some(width) => width.trim_end_matches('>').parse() == Ok(number),
            None => text == "bool" && number == 0 || text[1..].parse() == Ok(number.wrapping_sub(128)),
        },
        Part::Callable => text.starts_with("action ") == (number == 0),
        Part::DefaultCount => text.matches(',').count() as u64 + u64::from(text != "()") == number,
        Part::EntryCount => text == "entries" || text == format!("entries {number}"),
        Part::PacketCount => text == "packet" || text == format!("packet {number}"),
        Part::Key | Part::Selected => true,
        Part::Default | Part::Position => text.starts_with(['a', 'f']) && said(text).is_none_or(|said| said == number),
        part if !tags(part).is_empty() => tags(part).contains(&number),
        _ => said(text).or_else(|| said(&text[1..])) == Some(number),
    }
}

fn check(name: &str, bytes: &[u8]) {
    let Ok(sheet) = show(bytes) else { return };
    let numbers = numbers::read(bytes).expect("numbers");
    let values: BTreeMap<usize, u64> = numbers.iter().map(|number| (number.place, number.value)).collect();
    for mark in &sheet.marks {
        let text = &sheet.text[mark.start..mark.end];
        match (mark.part, values.get(&mark.place)) {
            (Part::ApplyBody, _) => assert_eq!((mark.place, text), (0, "apply")),
            (Part::Missing, number) => assert!(number.is_none() && mark.place == bytes.len(), "{name}"),
            (part, Some(&number)) => assert!(agrees(mark, text, number), "{name}: {part:?} {number} at '{text}'"),
            (part, None) => panic!("{name}: {part:?} at '{text}' has no number at {}", mark.place),
        }
    }
}

#[test]
fn marks_stand_under_their_numbers() {
    for (name, example) in example::corpus().expect("the corpus") {
        check(&name, &example.bytes);
    }
    for number in 0..8_000 {
        check(&format!("generated file {number}"), &bench_file(51, number, 200));
    }
    for number in 0..4_000 {
        for version in 1..=LATEST {
            check(&format!("wild file {number} of version {version}"), &wild_file(number, version));
        }
    }
}
