//! The deliberate faults in cells and in what they remember, each with its
//! description.

use super::fault::Fault;
use super::listed::Listed;

/// Faults that the rule without remembering alone has to find, with both sides
/// wrong alike.
pub const AGAINST_PLAIN: &[Fault] = &[
    Fault::NextPosition,
    Fault::EntriesUsed,
    Fault::ContextForNode,
];

pub const REMEMBERING: &[Listed] = &[
    (
        Fault::ParametersUnchecked,
        "a parameter count of 9 accepted",
        2000,
    ),
    (
        Fault::FormalsUnchecked,
        "a wrong sum of parameter counts accepted",
        2000,
    ),
    (
        Fault::ParametersNotWritten,
        "parameter counts written as 0",
        500,
    ),
    (Fault::CellCeiling, "more than 960 cells allowed", 2000),
    (
        Fault::LentByteShort,
        "cells accepted that are lent one byte short",
        500,
    ),
    (
        Fault::NextPosition,
        "a value remembered in the next position",
        500,
    ),
    (
        Fault::PositionInFile,
        "a position counted over all formals",
        500,
    ),
    (
        Fault::EntriesLeft,
        "the entries of a new cell left as they were",
        500,
    ),
    (
        Fault::EntriesUsed,
        "what a new cell's bytes remembered before used",
        500,
    ),
    (
        Fault::CalleeOverwritten,
        "the callee overwritten when the eighth entry remembers",
        10000,
    ),
    (
        Fault::CalleeCleared,
        "zero bytes at the end of an eighth entry that remembers",
        10000,
    ),
    (
        Fault::CalleeMissing,
        "the callee not written at the cell's making",
        500,
    ),
    (Fault::ForeignUsed, "a foreign cell's entry used", 2000),
    (
        Fault::ForeignRemembered,
        "a value remembered in a foreign cell",
        500,
    ),
    (
        Fault::ContextForNode,
        "the remembered context for the node",
        2000,
    ),
    (
        Fault::EntryExchanged,
        "node and context exchanged in an entry",
        500,
    ),
    (
        Fault::RememberedUncounted,
        "the step of a remembered formal not counted",
        500,
    ),
    (Fault::FaultRemembered, "a fault remembered", 2000),
    (Fault::StopRemembered, "a stop remembered", 500),
    (
        Fault::ConstructorForgotten,
        "a constructor not remembered",
        500,
    ),
    (Fault::NothingRemembered, "nothing remembered", 500),
    (
        Fault::ListShortCells,
        "a context listed from cells of 4 bytes",
        500,
    ),
];
