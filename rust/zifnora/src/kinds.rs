//! Document 01's kinds of records, its codes of operators, and document 02's
//! kinds of a typed sheet and of a driver's view.

/// Records of a sheet. A typed sheet has `TYPED_CONSTRUCTOR` and
/// `TYPED_FUNCTION` in place of `CONSTRUCTOR` and `FUNCTION`.
pub mod sheet {
    pub const HEAD: u16 = 1;
    pub const CONSTRUCTOR: u16 = 2;
    pub const FUNCTION: u16 = 3;
    pub const TYPED_CONSTRUCTOR: u16 = 6;
    pub const TYPED_FUNCTION: u16 = 7;
    pub const NUMBER: u16 = 16;
    pub const READING: u16 = 17;
    pub const PARAMETER: u16 = 18;
    pub const PATTERN_VARIABLE: u16 = 19;
    pub const OPERATOR: u16 = 20;
    pub const IF: u16 = 21;
    pub const CALL: u16 = 22;
    pub const BUILD: u16 = 23;
    pub const CASE: u16 = 24;

    pub const NODES: [u16; 9] = [
        NUMBER,
        READING,
        PARAMETER,
        PATTERN_VARIABLE,
        OPERATOR,
        IF,
        CALL,
        BUILD,
        CASE,
    ];
}

/// Records of a translation. A function has its node count, then its parameter
/// count. A formal is two records: `FORMAL_LIST` lists its actuals, `FORMAL` is
/// a node that stands for it.
pub mod translation {
    pub const HEAD: u16 = 33;
    pub const FUNCTION: u16 = 34;
    pub const FORMAL_LIST: u16 = 35;
    pub const NUMBER: u16 = 48;
    pub const READING: u16 = 49;
    pub const FORMAL: u16 = 50;
    pub const SELECT: u16 = 51;
    pub const OPERATOR: u16 = 52;
    pub const IF: u16 = 53;
    pub const CALL: u16 = 54;
    pub const TUPLE: u16 = 55;
    pub const CASE: u16 = 56;

    pub const NODES: [u16; 9] = [
        NUMBER, READING, FORMAL, SELECT, OPERATOR, IF, CALL, TUPLE, CASE,
    ];
}

/// The record of an answer.
pub const ANSWER: u16 = 64;

/// The first two bytes of a driver's view: a number is shown in the four bytes
/// after them, or nothing, and these are 0.
pub mod view {
    pub const NUMBER: u16 = 0;
    pub const EMPTY: u16 = 1;
}

/// Codes of operators.
pub mod operators {
    pub const ADD: u16 = 0;
    pub const SUBTRACT: u16 = 1;
    pub const MULTIPLY: u16 = 2;
    pub const DIVIDE: u16 = 3;
    pub const LESS: u16 = 4;
    pub const EQUAL: u16 = 5;
}
