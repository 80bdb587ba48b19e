//! The file's tags.

pub mod expression {
    pub const BOOL: u64 = 0;
    pub const BITS: u64 = 1;
    pub const LOCAL: u64 = 2;
    pub const PARAMETER: u64 = 3;
    pub const GLOBAL: u64 = 4;
    pub const FIELD: u64 = 5;
    pub const VALID: u64 = 6;
    pub const NOT: u64 = 7;
    pub const COMPLEMENT: u64 = 8;
    pub const BINARY: u64 = 9;
    pub const CAST: u64 = 10;
    pub const SLICE: u64 = 11;
    pub const CONCATENATION: u64 = 12;
    pub const CALL: u64 = 13;
}

pub mod statement {
    pub const EMPTY: u64 = 0;
    pub const ASSIGN: u64 = 1;
    pub const IF: u64 = 2;
    pub const BLOCK: u64 = 3;
    pub const CALL: u64 = 4;
    pub const APPLY: u64 = 5;
    pub const RETURN_VALUE: u64 = 6;
    pub const RETURN: u64 = 7;
    pub const EXIT: u64 = 8;
    pub const SET_VALID: u64 = 9;
    pub const SET_INVALID: u64 = 10;
    pub const EXTRACT: u64 = 11;
    pub const VERIFY: u64 = 12;
}

pub mod transition {
    pub const NONE: u64 = 0;
    pub const ACCEPT: u64 = 1;
    pub const REJECT: u64 = 2;
    pub const NEXT: u64 = 3;
    pub const SELECT: u64 = 4;
}
