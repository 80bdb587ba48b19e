//! A file whose run is nearly all parser.

use crate::constructs::*;

const STATES: u64 = 16;

/// The globals: a long header, of which few fields begin with a byte, and a short one.
const LONG: u64 = 0;
const SHORT: u64 = 1;
const LONG_FIELDS: [u64; 16] = [4, 12, 3, 5, 9, 7, 1, 15, 20, 4, 11, 5, 13, 3, 10, 6];
const LONG_BYTES: u64 = 16;

/// How many short headers, a byte each, a state takes behind a long one.
const SHORTS: u64 = 16;
const STATE_BYTES: u64 = LONG_BYTES + SHORTS;
const PACKET_BYTES: u64 = STATES * STATE_BYTES;

/// What the last short header of a state holds, and how many values a select has; the last of them is this one.
const KIND: u64 = 200;
const PAIRS: u64 = 16;

/// Sixteen states that take a packet of 512 bytes.
pub fn sixteen_states() -> Vec<u8> {
    let bench = Bench {
        header_types: vec![[vec![16], LONG_FIELDS.to_vec()].concat(), vec![1, 8]],
        globals: vec![128, 129],
        states: (0..STATES).map(state).collect(),
        body: empty(),
        store: vec![0; 1 + LONG_FIELDS.len() + 2],
        packet: (0..PACKET_BYTES).map(byte).collect(),
        ..Bench::default()
    };
    bench.bytes()
}

/// Extracts for 32 bytes; then a select that leads to the next state, or, in the last state, accept.
fn state(number: u64) -> Numbers {
    let extracts = [vec![extract(LONG)], vec![extract(SHORT); SHORTS as usize]].concat();
    let last = STATES - 1;
    if number == last {
        return accepting(block(&extracts));
    }
    let others = (1..PAIRS).map(|value| [value, last]);
    let pairs: Vec<[u64; 2]> = others.chain([[KIND, number + 1]]).collect();
    selecting(block(&extracts), field(SHORT, 0), &pairs)
}

fn byte(index: u64) -> u64 {
    if index % STATE_BYTES == STATE_BYTES - 1 {
        KIND
    } else {
        index * 37 % 256
    }
}
