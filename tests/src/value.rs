//! Values with their types, and what the operators make of them.

use crate::tree::{Operator, Type};

#[derive(Clone, Copy, Debug, PartialEq, Eq)]
pub enum Value {
    Bool(bool),
    Bits { width: u32, value: u64 },
}

/// The largest value of a width from 0 to 64.
pub fn largest(width: u32) -> u64 {
    match width {
        0 => 0,
        _ => u64::MAX >> (64 - width),
    }
}

/// Whether a number is a value of the type.
pub fn fits(number: u64, kind: Type) -> bool {
    match kind {
        Type::Bool => number <= 1,
        Type::Bits(width) => number <= largest(width),
    }
}

impl Value {
    /// The value of the type that the number stands for, if it fits.
    pub fn of(number: u64, kind: Type) -> Option<Value> {
        fits(number, kind).then_some(match kind {
            Type::Bool => Value::Bool(number == 1),
            Type::Bits(width) => Value::Bits { width, value: number },
        })
    }

    /// 0 or false.
    pub fn zero(kind: Type) -> Value {
        match kind {
            Type::Bool => Value::Bool(false),
            Type::Bits(width) => Value::Bits { width, value: 0 },
        }
    }

    pub fn kind(self) -> Type {
        match self {
            Value::Bool(_) => Type::Bool,
            Value::Bits { width, .. } => Type::Bits(width),
        }
    }

    pub fn number(self) -> u64 {
        match self {
            Value::Bool(truth) => u64::from(truth),
            Value::Bits { value, .. } => value,
        }
    }

    pub fn truth(self) -> Option<bool> {
        match self {
            Value::Bool(truth) => Some(truth),
            Value::Bits { .. } => None,
        }
    }

    /// Width and number of a bits value.
    pub fn bits(self) -> Option<(u32, u64)> {
        match self {
            Value::Bool(_) => None,
            Value::Bits { width, value } => Some((width, value)),
        }
    }

    pub fn complement(self) -> Option<Value> {
        let (width, value) = self.bits()?;
        Some(Value::Bits { width, value: value ^ largest(width) })
    }

    pub fn cast(self, width: u32) -> Option<Value> {
        let (_, value) = self.bits()?;
        Some(Value::Bits { width, value: value & largest(width) })
    }

    pub fn slice(self, high: u32, low: u32) -> Option<Value> {
        let (width, value) = self.bits()?;
        if low <= high && high < width {
            let width = high - low + 1;
            Some(Value::Bits { width, value: (value >> low) & largest(width) })
        } else {
            None
        }
    }

    /// The left value in the high bits, the right one in the low bits.
    pub fn concatenate(self, right: Value) -> Option<Value> {
        let (high_width, high) = self.bits()?;
        let (low_width, low) = right.bits()?;
        let width = high_width + low_width;
        (width <= 64).then(|| Value::Bits { width, value: (high << low_width) | low })
    }

    /// A binary operation that works out both operands; none if it does not take them.
    pub fn combine(self, operator: Operator, right: Value) -> Option<Value> {
        use Operator::*;
        match operator {
            Equal if self.kind() == right.kind() => Some(Value::Bool(self == right)),
            Unequal if self.kind() == right.kind() => Some(Value::Bool(self != right)),
            Equal | Unequal | Both | Either => None,
            ShiftLeft | ShiftRight => self.shift(operator, right),
            _ => self.combine_one_width(operator, right),
        }
    }

    fn shift(self, operator: Operator, right: Value) -> Option<Value> {
        let (width, value) = self.bits()?;
        let (_, distance) = right.bits()?;
        let value = match u32::try_from(distance) {
            Ok(distance) if distance < width => match operator {
                Operator::ShiftLeft => (value << distance) & largest(width),
                _ => value >> distance,
            },
            _ => 0,
        };
        Some(Value::Bits { width, value })
    }

    fn combine_one_width(self, operator: Operator, right: Value) -> Option<Value> {
        let (width, a) = self.bits()?;
        let (right_width, b) = right.bits()?;
        if width != right_width {
            return None;
        }
        let word = match operator {
            Operator::Plus => a.wrapping_add(b),
            Operator::Minus => a.wrapping_sub(b),
            Operator::Times => a.wrapping_mul(b),
            Operator::And => a & b,
            Operator::Or => a | b,
            Operator::Xor => a ^ b,
            Operator::Less => return Some(Value::Bool(a < b)),
            Operator::LessOrEqual => return Some(Value::Bool(a <= b)),
            _ => return None,
        };
        Some(Value::Bits { width, value: word & largest(width) })
    }
}
