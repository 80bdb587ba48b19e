//! Expressions as text.

use super::{Part, Writer};
use crate::names::Sort;
use crate::operators::{symbol, CONCATENATION};
use second::numbers::Number;
use second::tree::*;

/// How tightly an expression holds together, from loose to tight.
#[derive(PartialEq, PartialOrd)]
enum Binding {
    Binary,
    Unary,
    Postfix,
}

impl Writer<'_> {
    pub fn expression(&mut self, expression: &Expression) {
        use ExpressionForm::*;
        let start = self.page.here();
        match &expression.form {
            Bool(value) => self.page.write(&bool_literal(*value)),
            Bits { width, value } => self.page.write(&format!("{width}w{value}")),
            Local(number) => self.name(Sort::Local, *number),
            Parameter(number) => self.name(Sort::Parameter, *number),
            Global(number) => self.name(Sort::Global, *number),
            Field { global, field } => self.field(*global, *field),
            Valid(global) => self.method(*global, "isValid()"),
            Not(operand) => self.prefixed("!", operand),
            Complement(operand) => self.prefixed("~", operand),
            Binary { operator, left, right } => self.binary(symbol(*operator), left, right),
            Cast { width, operand } => self.prefixed(&format!("(bit<{width}>) "), operand),
            Slice { high, low, operand } => {
                self.operand(operand, Binding::Postfix);
                self.page.write(&format!("[{high}:{low}]"));
            }
            Concatenation(left, right) => self.binary(CONCATENATION, left, right),
            Call(call) => self.call(call),
        }
        let part = match expression.form {
            Call(_) if self.in_state => Part::CallInState,
            _ => part(&expression.form),
        };
        self.page.mark(expression.place, part, start);
    }

    /// The regular name of a number that names something.
    pub fn name(&mut self, sort: Sort, number: Number) {
        self.page.write_marked(&sort.name(number.value), number.place, name_part(sort));
    }

    fn field(&mut self, global: Number, field: Number) {
        self.name(Sort::Global, global);
        self.page.write(".");
        self.name(Sort::Field, field);
    }

    pub fn method(&mut self, global: Number, method: &str) {
        self.name(Sort::Global, global);
        self.page.write(&format!(".{method}"));
    }

    fn prefixed(&mut self, prefix: &str, operand: &Expression) {
        self.page.write(prefix);
        self.operand(operand, Binding::Unary);
    }

    /// Operators of one sort follow each other without brackets from the left; other operands that have one get them.
    fn binary(&mut self, symbol: &str, left: &Expression, right: &Expression) {
        let chained = symbol_of(left) == Some(symbol);
        self.operand(left, if chained { Binding::Binary } else { Binding::Unary });
        self.page.write(&format!(" {symbol} "));
        self.operand(right, Binding::Unary);
    }

    fn operand(&mut self, operand: &Expression, least: Binding) {
        if binding(operand) >= least {
            self.expression(operand);
        } else {
            self.page.write("(");
            self.expression(operand);
            self.page.write(")");
        }
    }

    pub fn call(&mut self, call: &Call) {
        self.name(self.callable_sort(call.callable), call.callable);
        self.page.write("(");
        for (index, argument) in call.arguments.iter().enumerate() {
            self.page.comma_before(index);
            self.expression(argument);
        }
        self.page.write(")");
    }

    /// Whether a callable's name is a function's or an action's; a number that names none goes by a function's.
    pub fn callable_sort(&self, callable: Number) -> Sort {
        match named(&self.program.callables, callable.value).map(|callable| callable.kind) {
            Some(CallableKind::Action) => Sort::Action,
            Some(CallableKind::Function(_)) | None => Sort::Function,
        }
    }
}

/// The operator that an expression shows between two operands.
fn symbol_of(expression: &Expression) -> Option<&'static str> {
    match &expression.form {
        ExpressionForm::Binary { operator, .. } => Some(symbol(*operator)),
        ExpressionForm::Concatenation(..) => Some(CONCATENATION),
        _ => None,
    }
}

fn binding(expression: &Expression) -> Binding {
    use ExpressionForm::*;
    match &expression.form {
        Binary { .. } | Concatenation(..) => Binding::Binary,
        Not(_) | Complement(_) | Cast { .. } => Binding::Unary,
        Bool(_) | Bits { .. } | Local(_) | Parameter(_) | Global(_) => Binding::Postfix,
        Field { .. } | Valid(_) | Slice { .. } | Call(_) => Binding::Postfix,
    }
}

fn bool_literal(value: u64) -> String {
    match value {
        0 => "false".to_string(),
        1 => "true".to_string(),
        other => format!("bool({other})"),
    }
}

/// A number of entries, defaults and the store, which say no widths; its type, where it is known.
pub fn plain_value(value: u64, kind: Option<Type>) -> String {
    match (kind, value) {
        (Some(Type::Bool), 0 | 1) => bool_literal(value),
        _ => value.to_string(),
    }
}

fn name_part(sort: Sort) -> Part {
    match sort {
        Sort::Header => Part::GlobalType,
        Sort::Field => Part::FieldName,
        Sort::Global => Part::GlobalName,
        Sort::Action | Sort::Function => Part::CallableName,
        Sort::Parameter => Part::ParameterName,
        Sort::Local => Part::LocalName,
        Sort::Table => Part::TableName,
        Sort::State => Part::StateName,
    }
}

fn part(form: &ExpressionForm) -> Part {
    use ExpressionForm::*;
    match form {
        Bool(_) => Part::BoolLiteral,
        Bits { .. } => Part::BitsLiteral,
        Local(_) | Parameter(_) | Global(_) => Part::Variable,
        Field { .. } => Part::Field,
        Valid(_) => Part::Valid,
        Not(_) => Part::Not,
        Complement(_) => Part::Complement,
        Binary { operator, .. } => Part::Binary(*operator),
        Cast { .. } => Part::Cast,
        Slice { .. } => Part::Slice,
        Concatenation(..) => Part::Concatenation,
        Call(_) => Part::FunctionCall,
    }
}
