//! What the tests share: bench files from decimal numbers.

use second::numbers;

/// The bytes of numbers in decimal with blanks between.
pub fn bench(numbers: &str) -> Vec<u8> {
    let list: Vec<u64> = numbers.split_whitespace().map(|word| word.parse().expect("a decimal number")).collect();
    numbers::write(&list)
}
