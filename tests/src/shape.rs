//! The shape of a program: refusals 5 and 4, in one scan in file order.

use crate::answer::Refusal;
use crate::numbers::Number;
use crate::tree::*;
use std::fmt;

/// Files are read up to this version.
pub const LATEST: u64 = 2;
pub const DEEPEST: usize = 32;

type Shaped<T> = Result<T, Refusal>;

/// The program, and the numbers after its apply body.
pub fn read(numbers: &[Number], length: usize) -> Shaped<(Program, &[Number])> {
    let mut reader = Reader::new(numbers, length);
    let program = reader.program()?;
    Ok((program, reader.rest))
}

/// What may stand at the place where the scan refuses the numbers, if it does.
pub fn wanted(numbers: &[Number], length: usize) -> Option<Wanted> {
    let mut reader = Reader::new(numbers, length);
    reader.program().err().map(|_| reader.wanted)
}

/// What the scan wants of a number: what it stands for, and the list that it is from.
#[derive(Clone, Copy)]
pub enum Wanted {
    Any(&'static str),
    Listed { what: &'static str, least: u64, most: u64 },
    GlobalType,
    NoDeeperTag,
}

impl fmt::Display for Wanted {
    fn fmt(&self, text: &mut fmt::Formatter) -> fmt::Result {
        match self {
            Wanted::Any(what) => write!(text, "{what}"),
            Wanted::Listed { what, least, most } => write!(text, "{what}, {least} to {most}"),
            Wanted::GlobalType => write!(text, "a global's type, 0 to 64 or 128 to 135"),
            Wanted::NoDeeperTag => write!(text, "no tag deeper than {DEEPEST}"),
        }
    }
}

struct Reader<'a> {
    rest: &'a [Number],
    /// The stream's length in bytes: the place of a number that is missing.
    length: usize,
    /// The program's version, once it is read.
    version: u64,
    /// What the number that was asked for last may be.
    wanted: Wanted,
}

impl<'a> Reader<'a> {
    fn new(numbers: &'a [Number], length: usize) -> Self {
        Reader { rest: numbers, length, version: 0, wanted: Wanted::Any("the first number") }
    }

    fn number(&mut self, wanted: Wanted) -> Shaped<Number> {
        self.wanted = wanted;
        let (first, rest) = self.rest.split_first().ok_or(Refusal::at(4, self.length))?;
        self.rest = rest;
        Ok(*first)
    }

    /// The next number, whatever it is.
    fn any(&mut self, what: &'static str) -> Shaped<Number> {
        self.number(Wanted::Any(what))
    }

    /// The next number, from a list that runs from `least` to `most`.
    fn listed(&mut self, what: &'static str, least: u64, most: u64) -> Shaped<Number> {
        let number = self.number(Wanted::Listed { what, least, most })?;
        if (least..=most).contains(&number.value) {
            Ok(number)
        } else {
            Err(Refusal::at(4, number.place))
        }
    }

    fn width(&mut self, what: &'static str) -> Shaped<u32> {
        Ok(self.listed(what, 1, 64)?.value as u32)
    }

    /// A list, whose count is from a list of its own.
    fn members<T>(
        &mut self,
        count: &'static str,
        least: u64,
        most: u64,
        mut member: impl FnMut(&mut Self) -> Shaped<T>,
    ) -> Shaped<Vec<T>> {
        let count = self.listed(count, least, most)?.value;
        (0..count).map(|_| member(self)).collect()
    }

    fn program(&mut self) -> Shaped<Program> {
        self.version = self.listed("the version", 1, LATEST)?.value;
        Ok(Program {
            version: self.version,
            headers: self.members("the count of header types", 0, 8, Self::header)?,
            globals: self.members("the count of globals", 0, 32, Self::global)?,
            callables: self.members("the count of callables", 0, 16, Self::callable)?,
            tables: self.members("the count of tables", 0, 8, Self::table)?,
            states: self.states()?,
            apply_body: self.statement(1)?,
        })
    }

    fn header(&mut self) -> Shaped<Vec<u32>> {
        self.members("the count of a header's fields", 1, 16, |reader| reader.width("a field's width"))
    }

    fn global(&mut self) -> Shaped<Global> {
        let number = self.number(Wanted::GlobalType)?;
        let kind = match number.value {
            0..=64 => GlobalKind::Plain(plain_type(number.value)),
            128..=135 => GlobalKind::Header((number.value - 128) as usize),
            _ => return Err(Refusal::at(4, number.place)),
        };
        Ok(Global { place: number.place, kind })
    }

    fn plain_type(&mut self, what: &'static str) -> Shaped<Type> {
        Ok(plain_type(self.listed(what, 0, 64)?.value))
    }

    fn callable(&mut self) -> Shaped<Callable> {
        let number = self.listed("a callable's kind", 0, 1)?;
        let kind = match number.value {
            0 => CallableKind::Action,
            _ => CallableKind::Function(self.plain_type("a function's return type")?),
        };
        Ok(Callable {
            place: number.place,
            kind,
            parameters: self.members("the count of parameters", 0, 8, Self::parameter)?,
            locals: self.members("the count of locals", 0, 8, |reader| reader.plain_type("a local's type"))?,
            body: self.statement(1)?,
        })
    }

    fn parameter(&mut self) -> Shaped<Parameter> {
        let direction = match self.listed("a direction", 0, 3)?.value {
            0 => Direction::None,
            1 => Direction::In,
            2 => Direction::Out,
            _ => Direction::Inout,
        };
        Ok(Parameter { direction, kind: self.plain_type("a parameter's type")? })
    }

    fn table(&mut self) -> Shaped<Table> {
        let keys = self.members("the count of keys", 1, 4, Self::key)?;
        let actions = self.members("the count of listed actions", 1, 8, |reader| reader.any("a listed action"))?;
        let default = self.any("the default's position")?;
        let default_count = self.listed("the count of the default's arguments", 0, 8)?;
        let argument = |_| self.any("an argument of the default");
        let default_arguments = (0..default_count.value).map(argument).collect::<Shaped<_>>()?;
        Ok(Table { keys, actions, default, default_count, default_arguments })
    }

    fn key(&mut self) -> Shaped<Key> {
        let number = self.listed("a key's kind", 0, 2)?;
        let kind = match number.value {
            0 => KeyKind::Exact,
            1 => KeyKind::Lpm,
            _ => KeyKind::Ternary,
        };
        Ok(Key { place: number.place, kind, expression: self.expression(1)? })
    }

    fn has_parser(&self) -> bool {
        self.version >= FIRST_WITH_PARSER
    }

    /// The parser; a version without one has no list of states either.
    fn states(&mut self) -> Shaped<Vec<State>> {
        if self.has_parser() {
            self.members("the count of states", 1, 16, Self::state)
        } else {
            Ok(Vec::new())
        }
    }

    fn state(&mut self) -> Shaped<State> {
        Ok(State { statement: self.statement(1)?, transition: self.transition()? })
    }

    fn transition(&mut self) -> Shaped<Transition> {
        Ok(match self.listed("a transition's tag", 0, 4)?.value {
            0 => Transition::None,
            1 => Transition::Accept,
            2 => Transition::Reject(self.error()?),
            3 => Transition::Next(self.state_number()?),
            _ => Transition::Select {
                expression: self.expression(1)?,
                pairs: self.members("the count of a select's pairs", 0, 16, Self::pair)?,
            },
        })
    }

    fn pair(&mut self) -> Shaped<Pair> {
        Ok(Pair { value: self.any("a select's value")?, state: self.state_number()? })
    }

    fn state_number(&mut self) -> Shaped<Number> {
        self.any("a state's number")
    }

    fn error(&mut self) -> Shaped<u64> {
        Ok(self.listed("an error", 0, 255)?.value)
    }

    /// A tag of a construct at this depth: too deep comes before out of its list.
    fn tag(&mut self, depth: usize, what: &'static str, least: u64, most: u64) -> Shaped<Number> {
        match self.rest.first() {
            Some(tag) if depth > DEEPEST => {
                self.wanted = Wanted::NoDeeperTag;
                Err(Refusal::at(5, tag.place))
            }
            _ => self.listed(what, least, most),
        }
    }

    fn expression(&mut self, depth: usize) -> Shaped<Expression> {
        let tag = self.tag(depth, "an expression's tag", 0, 13)?;
        self.expression_of(tag, depth)
    }

    fn target(&mut self, depth: usize) -> Shaped<Expression> {
        let tag = self.tag(depth, "a target's tag", 2, 5)?;
        self.expression_of(tag, depth)
    }

    fn expression_of(&mut self, tag: Number, depth: usize) -> Shaped<Expression> {
        use ExpressionForm::*;
        let form = match tag.value {
            0 => Bool(self.any("a literal's value")?.value),
            1 => Bits { width: self.width("a literal's width")?, value: self.any("a literal's value")?.value },
            2 => Local(self.any("a local's number")?),
            3 => Parameter(self.any("a parameter's number")?),
            4 => Global(self.global_number()?),
            5 => Field { global: self.global_number()?, field: self.any("a field's number")? },
            6 => Valid(self.global_number()?),
            7 => Not(self.operand(depth)?),
            8 => Complement(self.operand(depth)?),
            9 => Binary { operator: self.operator()?, left: self.operand(depth)?, right: self.operand(depth)? },
            10 => Cast { width: self.width("a cast's width")?, operand: self.operand(depth)? },
            11 => Slice { high: self.bound()?, low: self.bound()?, operand: self.operand(depth)? },
            12 => Concatenation(self.operand(depth)?, self.operand(depth)?),
            _ => Call(self.call(depth)?),
        };
        Ok(Expression { place: tag.place, form })
    }

    fn operand(&mut self, holder: usize) -> Shaped<Box<Expression>> {
        Ok(Box::new(self.expression(holder + 1)?))
    }

    fn global_number(&mut self) -> Shaped<Number> {
        self.any("a global's number")
    }

    fn bound(&mut self) -> Shaped<u32> {
        Ok(self.listed("a slice's bound", 0, 63)?.value as u32)
    }

    fn operator(&mut self) -> Shaped<Operator> {
        Ok(OPERATORS[self.listed("an operator", 0, 13)?.value as usize])
    }

    fn call(&mut self, holder: usize) -> Shaped<Call> {
        let callable = self.any("a callable's number")?;
        let arguments = self.members("the count of arguments", 0, 8, |reader| reader.expression(holder + 1))?;
        Ok(Call { callable, arguments })
    }

    fn statement(&mut self, depth: usize) -> Shaped<Statement> {
        use StatementForm::*;
        let last = if self.has_parser() { 12 } else { 10 };
        let tag = self.tag(depth, "a statement's tag", 0, last)?;
        let form = match tag.value {
            0 => Empty,
            1 => Assign { target: self.target(depth + 1)?, value: self.expression(depth + 1)? },
            2 => If {
                condition: self.expression(depth + 1)?,
                then_branch: self.branch(depth)?,
                else_branch: self.branch(depth)?,
            },
            3 => Block(self.members("the count of a block's members", 0, 64, |reader| reader.statement(depth + 1))?),
            4 => Call(self.call(depth)?),
            5 => Apply(self.any("a table's number")?),
            6 => ReturnValue(self.expression(depth + 1)?),
            7 => Return,
            8 => Exit,
            9 => SetValid(self.global_number()?),
            10 => SetInvalid(self.global_number()?),
            11 => Extract(self.global_number()?),
            _ => Verify { condition: self.expression(depth + 1)?, error: self.error()? },
        };
        Ok(Statement { place: tag.place, form })
    }

    fn branch(&mut self, holder: usize) -> Shaped<Box<Statement>> {
        Ok(Box::new(self.statement(holder + 1)?))
    }
}

fn plain_type(number: u64) -> Type {
    match number {
        0 => Type::Bool,
        width => Type::Bits(width as u32),
    }
}
