//! The text form of an example: what it is about, its numbers or bytes, and the answer it has to have.
//!
//! ```text
//! # What it is about
//! unjudged                  only if it is run without a judge
//! 1 0 0 0 0                 numbers in decimal; a '#' starts a comment that ends with its line
//! bytes:                    only if bytes in hexadecimal follow, instead of numbers
//! =>
//! done 1 1                  the result lines, or stuck
//! ```

use crate::answer::{marked, unjudged, Answer};
use crate::numbers;
use std::path::Path;

pub struct Example {
    pub about: String,
    pub judged: bool,
    pub bytes: Vec<u8>,
    /// The answer's lines, to the letter.
    pub expected: String,
}

/// The example in a file.
pub fn read(file: &str) -> Result<Example, String> {
    let text = std::fs::read_to_string(file).map_err(|error| format!("{file}: {error}"))?;
    Example::parse(&text).map_err(|fault| format!("{file}: {fault}"))
}

/// Name and example of each file of the corpus.
pub fn corpus() -> Result<Vec<(String, Example)>, String> {
    let folder = Path::new(env!("CARGO_MANIFEST_DIR")).join("corpus");
    let files = std::fs::read_dir(&folder).map_err(|error| format!("{}: {error}", folder.display()))?;
    let mut examples = Vec::new();
    for file in files {
        let path = file.map_err(|error| error.to_string())?.path();
        let name = path.file_stem().unwrap_or_default().to_string_lossy().into_owned();
        examples.push((name, read(&path.to_string_lossy())?));
    }
    Ok(examples)
}

impl Example {
    /// The example of a text, or what is wrong with the text.
    pub fn parse(text: &str) -> Result<Example, String> {
        let (head, expected) = text.split_once("\n=>\n").ok_or("there is no line '=>'")?;
        let mut lines = head.lines();
        let about = lines.next().and_then(|line| line.strip_prefix("# ")).ok_or("the first line is no comment")?;
        let mut words: Vec<&str> = lines.flat_map(|line| without_comment(line).split_whitespace()).collect();
        let judged = !take_first(&mut words, "unjudged");
        let bytes = if take_first(&mut words, "bytes:") { from_hexadecimal(&words)? } else { from_decimal(&words)? };
        Ok(Example { about: about.to_string(), judged, bytes, expected: expected.to_string() })
    }

    /// What the second interpreter answers.
    pub fn answer(&self) -> Answer {
        if self.judged {
            marked(&self.bytes)
        } else {
            unjudged(&self.bytes)
        }
    }
}

fn without_comment(line: &str) -> &str {
    line.split('#').next().unwrap_or("")
}

fn take_first(words: &mut Vec<&str>, mark: &str) -> bool {
    let found = words.first() == Some(&mark);
    if found {
        words.remove(0);
    }
    found
}

fn from_decimal(words: &[&str]) -> Result<Vec<u8>, String> {
    let number = |word: &&str| word.parse().map_err(|_| format!("'{word}' is no number below 2^64"));
    Ok(numbers::write(&words.iter().map(number).collect::<Result<Vec<u64>, String>>()?))
}

fn from_hexadecimal(words: &[&str]) -> Result<Vec<u8>, String> {
    let byte = |word: &&str| u8::from_str_radix(word, 16).map_err(|_| format!("'{word}' is no byte"));
    words.iter().map(byte).collect()
}
