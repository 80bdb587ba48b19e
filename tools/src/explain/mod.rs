//! What the judge answers, in a person's words.

mod bytes;
mod finish;
mod lines;
mod rules;

use crate::paint::Paint;
use crate::show::{show, Mark, Sheet};
use second::answer::{Answer, Refusal};

/// The answer to a file: its result lines, and what they mean.
pub fn explain(bytes: &[u8], answer: &Answer, paint: Paint) -> String {
    let meaning = match answer {
        Answer::Refused(refusal) => match show(bytes) {
            Ok(sheet) => explain_construct(&sheet, bytes.len(), *refusal, paint),
            Err(_) => bytes::explain_bytes(bytes, *refusal, paint),
        },
        Answer::Finished { signal, steps, ceiling, store } => {
            let sentence = finish::sentence(*signal, *steps, *ceiling);
            sentence + &finish::stores(bytes, store, paint)
        }
        Answer::Stuck | Answer::TooLong => String::new(),
    };
    answer.lines() + &meaning
}

/// The rule, and the number at fault in the text of its construct.
fn explain_construct(sheet: &Sheet, length: usize, refusal: Refusal, paint: Paint) -> String {
    let marks: Vec<&Mark> = sheet.marks.iter().filter(|mark| mark.place == refusal.place).collect();
    let rules: Vec<&str> = marks.iter().filter_map(|mark| rules::of_part(refusal.number, mark.part)).collect();
    let rule = if rules.is_empty() { rules::general(refusal.number).to_string() } else { rules.join("; ") };
    let lines = marks.last().map_or(String::new(), |mark| lines::marked(&sheet.text, mark, paint));
    format!("{}{}\n{lines}", rule_line(refusal, &rule), place_line(refusal, length))
}

fn rule_line(refusal: Refusal, rule: &str) -> String {
    format!("Refusal {}: {rule}.\n", refusal.number)
}

fn place_line(refusal: Refusal, length: usize) -> String {
    let place = refusal.place;
    if place == length {
        format!("At byte {place}, where the file ends:\n")
    } else {
        format!("At byte {place} of {length}:\n")
    }
}
