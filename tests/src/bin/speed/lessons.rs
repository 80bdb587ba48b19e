//! Files like those of a course: a header that comes in, tables that choose a port for it. A small and a large one.

use crate::constructs::*;

/// The globals: a header with time to live, protocol, source and destination; a port.
const PACKET: u64 = 0;
const PORT: u64 = 1;
const FIELDS: [u64; 4] = [8, 8, 32, 32];
const PORTS: u64 = 9;

/// The first callables, and how many there are at most.
const LOWER: u64 = 0;
const DROP: u64 = 1;
const FORWARD: u64 = 2;
const CALLABLES: u64 = 16;

fn time_to_live() -> Numbers {
    field(PACKET, 0)
}

fn source() -> Numbers {
    field(PACKET, 2)
}

fn destination() -> Numbers {
    field(PACKET, 3)
}

/// One less, a port that leads nowhere, a port with one hop taken.
fn first_callables() -> Vec<Numbers> {
    let lower = give_back(binary(MINUS, parameter(0), bits(8, 1)));
    let drop = assign(global(PORT), bits(PORTS, 511));
    let hop = assign(time_to_live(), value_of(LOWER, &[time_to_live()]));
    let forward = block(&[assign(global(PORT), parameter(0)), hop]);
    vec![function(8, &[[IN, 8]], &[], lower), action(&[], &[], drop), action(&[[NONE, PORTS]], &[], forward)]
}

/// A table applied where the header is valid and has hops left, else the drop.
fn stage(table: u64) -> Numbers {
    let alive = binary(LESS, bits(8, 0), time_to_live());
    either_or(binary(BOTH, valid(PACKET), alive), apply(table), call(DROP, &[]))
}

fn store() -> Numbers {
    vec![1, 64, 6, 0xc0a8_0102, 0x0a00_0105, 0]
}

/// About 150 bytes: one table of five prefixes.
pub fn small() -> Vec<u8> {
    let networks = [(0x0a00_0000, 8, 1), (0xc0a8_0100, 24, 2), (0xc0a8_0000, 16, 3), (0xac10_0000, 12, 4), (0, 0, 5)];
    let bench = Bench {
        header_types: vec![[vec![4], FIELDS.to_vec()].concat()],
        globals: vec![128, PORTS],
        callables: first_callables(),
        tables: vec![table(&[(LPM, destination())], &[FORWARD, DROP], 1, &[])],
        body: stage(0),
        entries: networks.iter().map(|&(address, length, port)| vec![0, address, length, 0, port]).collect(),
        store: store(),
        ..Bench::default()
    };
    bench.bytes()
}

/// About 4,000 bytes: sixteen callables, eight tables of three sorts, 64 entries.
pub fn large() -> Vec<u8> {
    let file = |length: usize| {
        let further = (FORWARD + 1..CALLABLES).map(|number| mix(number, length));
        let stages: Vec<Numbers> = (0..24).map(|index| stage(index % 8)).collect();
        let bench = Bench {
            header_types: vec![[vec![4], FIELDS.to_vec()].concat()],
            globals: vec![128, PORTS],
            callables: first_callables().into_iter().chain(further).collect(),
            tables: (0..8).map(sorted).collect(),
            body: block(&stages),
            entries: (0..64).map(|index| entry(index % 8, index / 8)).collect(),
            store: store(),
            ..Bench::default()
        };
        bench.bytes()
    };
    file(most(4096, file))
}

/// An action that mixes source and destination, so many statements long, and takes a hop.
fn mix(number: u64, length: usize) -> Numbers {
    let sum = binary(PLUS, binary(XOR, source(), destination()), bits(32, 1000 * number));
    let choose = either_or(
        binary(LESS, local(0), bits(32, 100_000)),
        assign(source(), local(0)),
        assign(local(0), binary(RIGHT, local(0), bits(8, 3))),
    );
    let halves = concatenation(slice(15, 0, local(0)), slice(31, 16, source()));
    let statements = [assign(local(0), sum), choose, assign(destination(), halves), call(FORWARD, &[parameter(0)])];
    let body: Vec<Numbers> = statements.into_iter().cycle().take(length).collect();
    action(&[[NONE, PORTS]], &[32], block(&body))
}

/// Table t: by prefix, by protocol and mask, or by port.
fn sorted(t: u64) -> Numbers {
    let keys = match t % 3 {
        0 => vec![(LPM, destination())],
        1 => vec![(EXACT, field(PACKET, 1)), (TERNARY, source())],
        _ => vec![(EXACT, global(PORT))],
    };
    table(&keys, &[FORWARD, FORWARD + 1 + t, DROP], 1, &[t])
}

/// An entry of table t: a network of a length of its own, a mask or a port.
fn entry(t: u64, index: u64) -> Numbers {
    let address = (0x0a00_0000 + (index << 16)) >> (24 - 2 * index) << (24 - 2 * index);
    let patterns = match t % 3 {
        0 => vec![address, 8 + 2 * index],
        1 => vec![6, index << 4, 0xf0],
        _ => vec![index],
    };
    [vec![t], patterns, vec![index % 2, index]].concat()
}
