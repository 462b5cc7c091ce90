//! The numbers of document 01's table and those that document 02 adds, with
//! the paper's word for each, and the two outcomes that are values.

/// Refusal: "cut". A file ends inside a record, or before the last one due.
pub const TRUNCATED: u16 = 1;
/// Refusal: "oversize". A file is above its size.
pub const OVERSIZE: u16 = 2;
/// Refusal: "bad record". Kind not due, length wrong, operator code above 5,
/// or bytes after the last record.
pub const BAD_RECORD: u16 = 3;
/// Refusal: "bad count". A count outside its range, or a wrong sum of
/// counts.
pub const BAD_COUNT: u16 = 4;
/// Refusal: "dangling". A reference or a parameter position out of range; in
/// a listing, a damaged cell.
pub const OUT_OF_RANGE: u16 = 5;
/// Refusal: "misgrown". A child, case or pattern rule is broken.
pub const BAD_TREE: u16 = 6;
/// Refusal: "misfit". Argument count wrong, or `result` has parameters.
pub const BAD_ARGUMENTS: u16 = 7;
/// Refusal: "short tray". An output does not fit.
pub const SHORT_OUTPUT: u16 = 8;
/// Refusal: "sensor count". The readings are not as many as are due.
pub const BAD_READINGS: u16 = 9;
/// Refusal: "bad allowance". A ceiling passed, nesting 0, or cells not lent.
pub const BAD_ALLOWANCE: u16 = 10;
/// Refusal: "closed". A reading node outside the hirer's set.
pub const CLOSED_READING: u16 = 21;
/// Refusal: "ill typed". A node of a typed sheet breaks a rule of types.
pub const ILL_TYPED: u16 = 22;
/// Refusal: "bad range". In a search, the lowest value is above the highest, the
/// values are too many, or there is no reading at the position.
pub const BAD_RANGE: u16 = 23;

/// Stop: "steps".
pub const NO_STEP: u16 = 11;
/// Stop: "nesting".
pub const NO_NESTING: u16 = 12;
/// Stop: "cells". As many are alive as are allowed.
pub const NO_CELL: u16 = 13;

/// Run fault: "number wanted". An operand or a condition is a constructor.
pub const NUMBER_WANTED: u16 = 14;
/// Run fault: "constructor wanted". A case or select on a number.
pub const CONSTRUCTOR_WANTED: u16 = 15;
/// Run fault: "no clause".
pub const NO_CLAUSE: u16 = 16;
/// Run fault: "zero divisor".
pub const ZERO_DIVISOR: u16 = 17;
/// Run fault: "no actual". Empty context, or a label beyond the list.
pub const NO_ACTUAL: u16 = 18;
/// Run fault: "no field". An index beyond the tuple.
pub const NO_FIELD: u16 = 19;
/// Run fault: "overflow". A product outside signed 32 bits.
pub const OVERFLOW: u16 = 20;

/// Outcome of a search: "none". No value in the range does it.
pub const NO_VALUE: u16 = 24;

/// The outcome of a number.
pub const NUMBER: u16 = 0;
/// The outcome of a constructor.
pub const CONSTRUCTOR: u16 = 100;

/// A call or a run of this outcome was refused.
pub fn is_refusal(outcome: u16) -> bool {
    (TRUNCATED..=BAD_ALLOWANCE).contains(&outcome)
        || (CLOSED_READING..=BAD_RANGE).contains(&outcome)
}

/// A run of this outcome was stopped by an allowance.
pub fn is_stop(outcome: u16) -> bool {
    (NO_STEP..=NO_CELL).contains(&outcome)
}

/// A run of this outcome ended with a run fault.
pub fn is_fault(outcome: u16) -> bool {
    (NUMBER_WANTED..=OVERFLOW).contains(&outcome)
}

/// A run of this outcome ended with a number or a constructor.
pub fn is_value(outcome: u16) -> bool {
    outcome == NUMBER || outcome == CONSTRUCTOR
}

/// A search of this outcome has found that no value does it.
pub fn is_none(outcome: u16) -> bool {
    outcome == NO_VALUE
}
