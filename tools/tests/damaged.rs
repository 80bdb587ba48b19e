//! Texts with faults at random: each is read as a file that can be shown, or its fault is told with a place in it.

use second::generate::{bench_file, Random};
use sheet::make::make;
use sheet::show::show;

/// Words that stand somewhere in a text, and some that stand nowhere.
const WORDS: [&str; 26] = [
    "{",
    "}",
    "(",
    ")",
    ";",
    ":",
    ",",
    "=",
    "...",
    "&&&",
    "/",
    "++",
    "!",
    "[1:0]",
    "if",
    "else",
    "bool",
    "bit<8>",
    "8w1",
    "7",
    "g0",
    "f1(",
    "actions[1]",
    "numbers",
    "0x",
    "ä",
];

/// The characters of a text in pieces: words, and what stands between them.
fn pieces(text: &str) -> Vec<String> {
    let mut pieces: Vec<String> = Vec::new();
    let mut last_of_word = false;
    for character in text.chars() {
        let of_word = character.is_ascii_alphanumeric();
        match pieces.last_mut() {
            Some(piece) if of_word && last_of_word => piece.push(character),
            _ => pieces.push(character.to_string()),
        }
        last_of_word = of_word;
    }
    pieces
}

fn damaged(random: &mut Random, text: &str) -> String {
    let mut pieces = pieces(text);
    for _ in 0..random.between(1, 3) {
        let index = random.index(pieces.len());
        match random.between(0, 3) {
            0 => pieces[index].clear(),
            1 => pieces[index] = random.choose(&WORDS).to_string(),
            2 => pieces[index].push_str(random.choose(&WORDS)),
            _ => {
                let other = random.index(pieces.len());
                pieces.swap(index, other);
            }
        }
    }
    pieces.concat()
}

#[test]
fn a_damaged_text_is_a_file_or_a_fault() {
    let mut random = Random::new(41);
    let (mut files, mut faults) = (0, 0);
    for number in 0..20_000 {
        let Ok(sheet) = show(&bench_file(41, number, 160)) else { continue };
        let text = damaged(&mut random, &sheet.text);
        match make(&text) {
            Ok(bytes) => {
                files += 1;
                let shown = show(&bytes).unwrap_or_else(|refusal| panic!("{refusal:?} of\n{text}")).text;
                assert_eq!(make(&shown).as_ref(), Ok(&bytes), "{text}");
            }
            Err(fault) => {
                faults += 1;
                let told = fault.told("text", &text);
                assert!(told.lines().count() == 3 && told.starts_with("text:"), "{told}");
            }
        }
    }
    assert!(files > 1_000 && faults > 10_000, "{files} files, {faults} faults");
}
