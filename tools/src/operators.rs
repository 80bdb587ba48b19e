//! What stands between two operands: its symbol, and how tightly it binds.

use second::tree::{Operator, OPERATORS};

pub const CONCATENATION: &str = "++";

pub fn symbol(operator: Operator) -> &'static str {
    use Operator::*;
    match operator {
        Plus => "+",
        Minus => "-",
        Times => "*",
        And => "&",
        Or => "|",
        Xor => "^",
        ShiftLeft => "<<",
        ShiftRight => ">>",
        Equal => "==",
        Unequal => "!=",
        Less => "<",
        LessOrEqual => "<=",
        Both => "&&",
        Either => "||",
    }
}

/// The operator's number in the file; none for a symbol of no operator.
pub fn number(of: &str) -> Option<u64> {
    OPERATORS.iter().position(|&operator| symbol(operator) == of).map(|index| index as u64)
}

/// How tightly operators and concatenation bind, as in P4; those of one strength group from the left.
pub fn strength(symbol: &str) -> Option<usize> {
    Some(match symbol {
        "||" => 0,
        "&&" => 1,
        "==" | "!=" => 2,
        "<" | "<=" => 3,
        "|" => 4,
        "^" => 5,
        "&" => 6,
        "<<" | ">>" => 7,
        "+" | "-" | CONCATENATION => 8,
        "*" => 9,
        _ => return None,
    })
}
