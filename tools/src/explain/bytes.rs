//! Refusals 1 to 5: the bytes around the place, and what was expected there.

use super::{place_line, rule_line, rules};
use crate::paint::Paint;
use second::answer::Refusal;
use second::numbers::{self, MOST_BYTES_OF_A_NUMBER};
use second::shape;

/// How many bytes are shown on each side of the number at fault.
const AROUND: usize = 8;

pub fn explain_bytes(bytes: &[u8], refusal: Refusal, paint: Paint) -> String {
    let rule = rule_line(refusal, rules::general(refusal.number));
    if refusal.number == 1 {
        return format!("{rule}This file has {}.\n", bytes.len());
    }
    let number = number_at(bytes, refusal.place);
    let around = around(bytes, refusal.place, number.len(), paint);
    let expected = expected(bytes, refusal, number);
    format!("{rule}{}\n{around}\nExpected: {expected}.\n", place_line(refusal, bytes.len()))
}

/// The bytes of the number that begins at a place, good or not; none at the end of the file.
fn number_at(bytes: &[u8], place: usize) -> &[u8] {
    let rest = bytes.get(place..).unwrap_or(&[]);
    let last = rest.iter().take(MOST_BYTES_OF_A_NUMBER).position(|&byte| byte < 0x80);
    let length = last.map_or(MOST_BYTES_OF_A_NUMBER, |index| index + 1);
    &rest[..length.min(rest.len())]
}

fn expected(bytes: &[u8], refusal: Refusal, number: &[u8]) -> String {
    match (refusal.number, number) {
        (2, _) => "a last byte below 80, before the file ends".to_string(),
        (3, [.., tenth]) if number.len() == MOST_BYTES_OF_A_NUMBER => format!("01 for the tenth byte, not {tenth:02X}"),
        (3, _) => "no 00 behind other bytes of a number".to_string(),
        _ => expected_of_shape(bytes, refusal),
    }
}

fn expected_of_shape(bytes: &[u8], refusal: Refusal) -> String {
    let numbers = numbers::read(bytes).unwrap_or_default();
    let wanted = shape::wanted(&numbers, bytes.len()).map_or(String::new(), |wanted| wanted.to_string());
    match numbers.iter().find(|number| number.place == refusal.place) {
        Some(number) if refusal.number == 4 => format!("{wanted}; this is {}", number.value),
        _ => wanted,
    }
}

/// Bytes with their places, and a mark under those of the number at fault; two dashes stand where one is missing.
fn around(bytes: &[u8], place: usize, length: usize, paint: Paint) -> String {
    let from = place.saturating_sub(AROUND);
    let to = bytes.len().min(place + length + AROUND);
    let last = to.max(place + 1);
    let width = (last - 1).to_string().len().max(2);
    let marked = place..place + length.max(1);
    let row = |cell: &dyn Fn(usize) -> String| -> String {
        (from..last).map(|index| format!(" {:>width$}", cell(index))).collect()
    };
    let places = row(&|index| index.to_string());
    let values = row(&|index| bytes.get(index).map_or("--".to_string(), |byte| format!("{byte:02X}")));
    let marks = row(&|index| if marked.contains(&index) { "^^".to_string() } else { String::new() });
    format!("    place{places}\n    byte {values}\n         {}\n", paint.fault(marks.trim_end()))
}

#[cfg(test)]
mod tests {
    use super::{around, number_at};
    use crate::paint::Paint;

    #[test]
    fn a_number_ends_at_a_low_byte_at_ten_or_with_the_file() {
        assert_eq!(number_at(&[1, 0x80, 0x80, 0, 5], 1), [0x80, 0x80, 0]);
        assert_eq!(number_at(&[0xff; 12], 1).len(), 10);
        assert_eq!(number_at(&[1, 0x80], 1), [0x80]);
        assert!(number_at(&[1], 1).is_empty());
    }

    #[test]
    fn the_bytes_around_a_place_stand_under_their_places() {
        let bytes: Vec<u8> = (0..30).collect();
        let shown = around(&bytes, 10, 1, Paint::NONE);
        assert!(shown.starts_with("    place  2  3"), "{shown}");
        assert!(shown.contains("    byte  02 03"), "{shown}");
        assert!(shown.ends_with("\n                                  ^^\n"), "{shown}");
        assert_eq!(around(&[1], 1, 0, Paint::NONE), "    place  0  1\n    byte  01 --\n             ^^\n");
    }
}
