//! The text in the making, with a mark for each number that a refusal may be charged to.

use second::tree::Operator;

const INDENT: &str = "    ";

pub struct Sheet {
    pub text: String,
    pub marks: Vec<Mark>,
}

/// Where a number of the file stands in the text: the bytes from `start` to `end`.
pub struct Mark {
    /// The number's place in the file.
    pub place: usize,
    pub part: Part,
    pub start: usize,
    pub end: usize,
}

/// What a number is that a refusal from 6 to 12, or 16, may be charged to.
#[derive(Clone, Copy, Debug, PartialEq, Eq)]
pub enum Part {
    GlobalType,
    Callable,
    KeyKind,
    Key,
    Listed,
    Default,
    DefaultCount,
    DefaultArgument,

    GlobalName,
    FieldName,
    LocalName,
    ParameterName,
    CallableName,
    TableName,

    BoolLiteral,
    BitsLiteral,
    Variable,
    Field,
    Valid,
    Not,
    Complement,
    Binary(Operator),
    Cast,
    Slice,
    Concatenation,
    FunctionCall,

    Assign,
    If,
    Call,
    Apply,
    ReturnValue,
    Return,
    Exit,
    SetValid,
    Extract,
    Verify,

    StateName,
    Selected,
    SelectValue,
    /// A call in a state.
    CallInState,
    /// Another construct that does not stand in a state: apply, return, exit.
    BarredInState,

    /// The version's place, which a ceiling is charged to.
    ApplyBody,
    EntryCount,
    EntryTable,
    KeyValue,
    PrefixLength,
    Mask,
    Position,
    Argument,
    StoreValue,
    ValidMark,
    StoreField,
    PacketCount,
    PacketByte,
    /// A number that is not cut out, but is no entry's first one and not left over.
    Uncut,
    LeftOver,
    BehindPacket,
    /// Where the numbers end too early.
    Missing,
}

#[derive(Default)]
pub struct Page {
    text: String,
    marks: Vec<Mark>,
    depth: usize,
}

impl Page {
    pub fn sheet(mut self) -> Sheet {
        self.text.push('\n');
        Sheet { text: self.text, marks: self.marks }
    }

    /// Where the next text begins.
    pub fn here(&self) -> usize {
        self.text.len()
    }

    pub fn write(&mut self, text: &str) {
        self.text.push_str(text);
    }

    /// Mark what was written from `start` on.
    pub fn mark(&mut self, place: usize, part: Part, start: usize) {
        self.marks.push(Mark { place, part, start, end: self.here() });
    }

    pub fn write_marked(&mut self, text: &str, place: usize, part: Part) {
        let start = self.here();
        self.write(text);
        self.mark(place, part, start);
    }

    /// What separates the member of a list at an index from the one before.
    pub fn comma_before(&mut self, index: usize) {
        if index > 0 {
            self.write(", ");
        }
    }

    pub fn new_line(&mut self) {
        self.text.push('\n');
        self.text.push_str(&INDENT.repeat(self.depth));
    }

    /// Leave a blank line, unless the page is empty.
    pub fn new_section(&mut self) {
        if !self.text.is_empty() {
            self.text.push_str("\n\n");
        }
    }

    pub fn open(&mut self) {
        self.write("{");
        self.depth += 1;
    }

    pub fn close(&mut self) {
        self.depth -= 1;
        if self.text.ends_with('{') {
            self.write(" }");
        } else {
            self.new_line();
            self.write("}");
        }
    }

    /// A new line one level deeper; `outdent` ends the level.
    pub fn indent(&mut self) {
        self.depth += 1;
        self.new_line();
    }

    pub fn outdent(&mut self) {
        self.depth -= 1;
    }
}
