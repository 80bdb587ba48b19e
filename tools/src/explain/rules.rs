//! The rule behind a refusal, in one sentence.

use crate::show::Part;
use second::tree::Operator;

/// The rule of a refusal in general.
pub fn general(number: u8) -> &'static str {
    match number {
        1 => "a bench file has 1 to 4,096 bytes",
        2 => "no number is cut off by the end of the file",
        3 => "a number takes the fewest bytes that hold it, and at most ten",
        4 => "each number of a program is on its list, and none is missing",
        5 => "constructs nest at most 32 deep",
        6 => "what is named is there, and within reach",
        7 => "types, widths, literals, slice bounds and argument counts agree",
        8 => "each construct stands where it may, and does what it may there",
        9 => "the ceiling is at most 1,000,000 steps",
        10 => "the entries are all there, and fit their tables and actions",
        11 => "the store is all there: a number for each bool and bits, a valid mark and all fields for each header",
        12 => "nothing stands behind the store",
        13 => "there is room for the run and for its result",
        16 => "the packet is all there: its count, at most 512, and so many numbers below 256",
        _ => "the slots of a call are among the first 8,192",
    }
}

/// The rule that a number of this sort breaks, where more is known than the general rule.
pub fn of_part(number: u8, part: Part) -> Option<&'static str> {
    match number {
        6 => of_names(part),
        7 => of_types(part).or_else(|| of_declared_types(part)),
        8 => of_form(part),
        10 => of_entries(part),
        11 => of_store(part),
        12 => of_what_is_behind(part),
        16 => of_packet(part),
        _ => None,
    }
}

fn of_names(part: Part) -> Option<&'static str> {
    Some(match part {
        Part::GlobalType => "a global's header type is one that the file declares",
        Part::Listed => "a table lists callables that the file declares",
        Part::Default => "the default is a position in the table's list of actions",
        Part::CallableName => {
            "a callable calls only callables with lower numbers; keys and the apply body call those that are declared"
        }
        Part::GlobalName => "a global is one that the file declares",
        Part::FieldName => "a field is one of its header's",
        Part::LocalName => "a local is one of its own callable's; outside callables there is none",
        Part::ParameterName => "a parameter is one of its own callable's; outside callables there is none",
        Part::TableName => "a table is one that the file declares",
        Part::StateName => "a state leads to later states only",
        _ => return None,
    })
}

/// What expressions and statements ask of the types in them.
fn of_types(part: Part) -> Option<&'static str> {
    Some(match part {
        Part::BoolLiteral => "a bool literal is 0 or 1",
        Part::BitsLiteral => "a literal fits its width",
        Part::Variable => "a header is no value; its fields are",
        Part::Field => "only headers have fields",
        Part::Valid => "only headers are valid or not",
        Part::Not => "'!' takes a bool",
        Part::Complement => "'~' takes bits",
        Part::Binary(operator) => of_operands(operator),
        Part::Cast => "a cast takes bits",
        Part::Slice => "a slice takes bits, from a high bound below their width down to a low one that is no higher",
        Part::Concatenation => "'++' takes bits, together at most 64",
        Part::FunctionCall | Part::Call | Part::CallInState => {
            "a call has one argument for each parameter, of the parameter's type"
        }
        Part::Assign => "the two sides of an assignment have one type",
        Part::If => "the condition of an if is a bool",
        Part::ReturnValue => "a function returns a value of its return type",
        Part::SetValid => "only headers are set valid and invalid",
        Part::Extract => "only headers are extracted, and only those whose fields take whole bytes",
        Part::Verify => "the condition of a verify is a bool",
        _ => return None,
    })
}

/// What tables and selects ask of types.
fn of_declared_types(part: Part) -> Option<&'static str> {
    Some(match part {
        Part::Key => "a key is bits",
        Part::DefaultCount => "the default has one argument for each parameter of its action",
        Part::DefaultArgument => "an argument of the default fits its parameter",
        Part::Selected => "a select is on bits",
        Part::SelectValue => "a value of a select fits the width of its expression",
        _ => return None,
    })
}

fn of_operands(operator: Operator) -> &'static str {
    use Operator::*;
    match operator {
        Plus => "'+' takes bits of one width",
        Minus => "'-' takes bits of one width",
        Times => "'*' takes bits of one width",
        And => "'&' takes bits of one width",
        Or => "'|' takes bits of one width",
        Xor => "'^' takes bits of one width",
        ShiftLeft => "'<<' takes bits, of any two widths",
        ShiftRight => "'>>' takes bits, of any two widths",
        Equal => "'==' takes bits of one width, or two bools",
        Unequal => "'!=' takes bits of one width, or two bools",
        Less => "'<' takes bits of one width",
        LessOrEqual => "'<=' takes bits of one width",
        Both => "'&&' takes bools",
        Either => "'||' takes bools",
    }
}

fn of_form(part: Part) -> Option<&'static str> {
    Some(match part {
        Part::Variable | Part::Field | Part::Valid | Part::SetValid => "a function sees no globals",
        Part::FunctionCall => "a call for a value calls a function, and for out and inout gives places it may write",
        Part::Call => "a function calls no action, and a call gives places it may write for out and inout",
        Part::Assign => "a parameter without direction, or with in, is not written",
        Part::Apply => "tables are applied in the apply body only",
        Part::ReturnValue => "only a function returns a value",
        Part::Return => "a function returns a value",
        Part::Exit => "a function has no exit",
        Part::Callable => "a function returns a value on each path",
        Part::KeyKind => "a table has at most one lpm key",
        Part::Listed => "a table lists actions whose parameters have no direction",
        Part::Extract | Part::Verify => "extract and verify stand in states only",
        Part::CallInState => "a state calls nothing",
        Part::BarredInState => "a state applies no table, and has no return and no exit",
        _ => return None,
    })
}

fn of_entries(part: Part) -> Option<&'static str> {
    Some(match part {
        Part::EntryCount => "there are at most 64 entries",
        Part::EntryTable => "an entry is one of a table that the file declares",
        Part::KeyValue => "a value fits the width of its key",
        Part::PrefixLength => "a prefix is no longer than its key's width, and the value is 0 behind it",
        Part::Mask => "a mask fits its key's width, and the value is 0 where the mask is",
        Part::Position => "an entry's action is a position in its table's list",
        Part::Argument => "an argument fits its parameter",
        Part::Missing => "the count of entries and all numbers of each entry are there",
        _ => return None,
    })
}

fn of_store(part: Part) -> Option<&'static str> {
    Some(match part {
        Part::StoreValue => "a value fits its type",
        Part::ValidMark => "a valid mark is 0 or 1",
        Part::StoreField => "a field fits its width, and is 0 in an invalid header",
        _ => return None,
    })
}

fn of_what_is_behind(part: Part) -> Option<&'static str> {
    match part {
        Part::BehindPacket => Some("nothing stands behind the packet"),
        _ => None,
    }
}

fn of_packet(part: Part) -> Option<&'static str> {
    Some(match part {
        Part::PacketCount => "a packet has at most 512 bytes",
        Part::PacketByte => "a byte of the packet is a number below 256",
        _ => return None,
    })
}
