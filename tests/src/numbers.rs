//! Bytes and numbers: refusals 1, 2 and 3.

use crate::answer::Refusal;

pub const MOST_BYTES: usize = 4096;
/// A tenth byte ends its number.
pub const MOST_BYTES_OF_A_NUMBER: usize = 10;

/// A number of the stream and the offset of its first byte.
#[derive(Clone, Copy, Debug, PartialEq, Eq)]
pub struct Number {
    pub value: u64,
    pub place: usize,
}

/// All numbers of the stream, or the fault of the first bad one.
pub fn read(bytes: &[u8]) -> Result<Vec<Number>, Refusal> {
    if bytes.is_empty() || bytes.len() > MOST_BYTES {
        return Err(Refusal::at(1, 0));
    }
    let mut numbers = Vec::new();
    let mut place = 0;
    while place < bytes.len() {
        let (value, length) = first(&bytes[place..]).map_err(|fault| Refusal::at(fault, place))?;
        numbers.push(Number { value, place });
        place += length;
    }
    Ok(numbers)
}

/// The number that the bytes begin with and how many bytes it takes, or the refusal it meets.
fn first(bytes: &[u8]) -> Result<(u64, usize), u8> {
    let mut value = 0;
    for (index, &byte) in bytes.iter().enumerate() {
        if index + 1 == MOST_BYTES_OF_A_NUMBER && byte != 1 {
            return Err(3);
        }
        value |= u64::from(byte & 0x7f) << (7 * index);
        if byte < 0x80 {
            return if byte == 0 && index > 0 { Err(3) } else { Ok((value, index + 1)) };
        }
    }
    Err(2)
}

/// The bytes of a list of numbers.
pub fn write(numbers: &[u64]) -> Vec<u8> {
    let mut bytes = Vec::new();
    for &number in numbers {
        let mut rest = number;
        while rest >= 0x80 {
            bytes.push((rest & 0x7f) as u8 | 0x80);
            rest >>= 7;
        }
        bytes.push(rest as u8);
    }
    bytes
}
