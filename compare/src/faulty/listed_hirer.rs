//! The deliberate faults in the run for a hirer, each with its description.

use super::fault::Fault;
use super::listed::Listed;

/// Faults that runs on other closed readings alone have to find, with both
/// sides wrong alike.
pub const AGAINST_CLOSED: &[Fault] = &[
    Fault::HirerSetIgnored,
    Fault::HirerSetShifted,
    Fault::HirerComplement,
    Fault::HirerCellsWritten,
];

/// Faults that the owner's run alone has to find, with both sides wrong alike.
pub const AGAINST_OWNER: &[Fault] = &[Fault::HirerClosedAsZero];

pub const HIRER: &[Listed] = &[
    (Fault::HirerSetIgnored, "no reading closed to a hirer", 500),
    (
        Fault::HirerSetShifted,
        "a hirer's set tested one reading off",
        500,
    ),
    (
        Fault::HirerComplement,
        "the complement of a hirer's set allowed",
        500,
    ),
    (
        Fault::HirerSetIn16Bits,
        "a hirer's set cut to 16 bits",
        2000,
    ),
    (
        Fault::HirerBitsPastRefused,
        "21 for bits of a hirer's set past the readings",
        500,
    ),
    (
        Fault::HirerUnusedClosed,
        "21 for a closed reading that no node names",
        500,
    ),
    (
        Fault::HirerReachedOnly,
        "21 only where the run reaches the node",
        500,
    ),
    (
        Fault::HirerClosedAsZero,
        "a closed reading taken for 0 and not refused",
        500,
    ),
    (Fault::HirerNodePlace, "21 placed at the node's number", 500),
    (
        Fault::HirerLastClosed,
        "21 placed at the last closed node",
        500,
    ),
    (
        Fault::HirerLowestClosed,
        "21 placed at the first node of the lowest closed reading",
        500,
    ),
    (Fault::HirerBeforeReferences, "21 before 5", 2000),
    (Fault::HirerReadingsFirst, "9 before 21", 500),
    (Fault::HirerAllowanceFirst, "10 before 21", 500),
    (
        Fault::HirerCellsWritten,
        "cells written where a hirer's run is refused with 21",
        500,
    ),
];
