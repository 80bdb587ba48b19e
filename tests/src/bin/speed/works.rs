//! What a run is full of: expressions, calls or ifs.

use crate::constructs::*;
use crate::ladder::Work;

/// A call of an action whose assignments have operators of every kind.
pub fn expressions() -> Work {
    let (first, second) = (|| global(0), || local(0));
    let sums = binary(XOR, binary(PLUS, second(), parameter(0)), binary(TIMES, first(), bits(32, 5)));
    let shifts = binary(OR, binary(LEFT, second(), bits(8, 3)), binary(RIGHT, second(), bits(8, 29)));
    let halves = concatenation(slice(31, 16, second()), slice(15, 0, first()));
    let difference = binary(MINUS, cast(32, field(2, 1)), complement(second()));
    let both = binary(BOTH, binary(LESS, second(), first()), valid(2));
    let truth = binary(EITHER, both, not(binary(EQUAL, parameter(0), second())));
    let low = slice(15, 0, binary(AND, second(), first()));
    let members = [
        assign(second(), sums),
        assign(first(), shifts),
        assign(second(), halves),
        assign(first(), difference),
        assign(global(1), truth),
        assign(field(2, 1), low),
    ];
    Work {
        header_types: vec![vec![3, 8, 16, 32]],
        globals: vec![32, 0, 128],
        callables: vec![action(&[[IN, 32]], &[32], block(&vec![members; 4].concat()))],
        statement: call(0, &[local(0)]),
        store: vec![7, 0, 1, 1, 2, 3],
    }
}

/// A call of an action that does nothing, with a parameter in, one inout and one out.
pub fn calls() -> Work {
    plain(action(&[[IN, 32], [INOUT, 32], [OUT, 32]], &[], empty()), call(0, &[local(0), local(1), local(2)]))
}

/// A call of a function for the value that goes in.
pub fn values() -> Work {
    let same = function(32, &[[IN, 32]], &[], give_back(parameter(0)));
    plain(same, assign(local(0), value_of(0, &[local(0)])))
}

/// Ifs that run a short first branch beside another one.
pub fn first_branches(other: &[u64]) -> Work {
    ifs(0, short_branch(), other.to_vec())
}

/// Ifs that run a short second branch beside another one.
pub fn second_branches(other: &[u64]) -> Work {
    ifs(1, other.to_vec(), short_branch())
}

/// A call, with 0, of an action of six ifs that ask whether its parameter is a number.
fn ifs(number: u64, first: Numbers, second: Numbers) -> Work {
    let asked = binary(EQUAL, parameter(0), bits(32, number));
    let body = block(&vec![either_or(asked, first, second); 6]);
    plain(action(&[[IN, 32]], &[], body), call(0, &[local(0)]))
}

pub fn short_branch() -> Numbers {
    assign(global(0), parameter(0))
}

/// Ifs in both branches of ifs: 509 numbers, of which a run would take 15 steps.
pub fn long_branch() -> Numbers {
    (0..7).fold(empty(), |inner, _| either_or(vec![0, 1], inner.clone(), inner))
}

/// A callable and a statement over one global.
fn plain(callable: Numbers, statement: Numbers) -> Work {
    Work { header_types: Vec::new(), globals: vec![32], callables: vec![callable], statement, store: vec![7] }
}
