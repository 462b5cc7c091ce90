//! The deliberate faults in giving cells back, each with its description.

use super::fault::Fault;
use super::listed::Listed;

/// Faults that the rule that keeps all cells alone has to find, with both sides
/// wrong alike.
pub const AGAINST_KEPT: &[Fault] = &[
    Fault::ConstructorGivesBack,
    Fault::InnerForgotten,
    Fault::CellBelowForgotten,
    Fault::ConstructorNeverKeeps,
    Fault::EntriesUsedAgain,
];

pub const GIVING: &[Listed] = &[
    (Fault::NothingGivenBack, "no cell given back", 500),
    (
        Fault::ConstructorGivesBack,
        "cells given back after a constructor",
        500,
    ),
    (
        Fault::EndGivesBack,
        "cells given back after a stop or a fault, and those left counted",
        500,
    ),
    (Fault::OwnCellKept, "the call's own cell kept", 500),
    (
        Fault::MostAfterGivingBack,
        "the most alive counted after giving back",
        500,
    ),
    (
        Fault::LiveAtEndCounted,
        "the cells alive at the end counted",
        500,
    ),
    (Fault::MadeCounted, "the cells made counted", 500),
    (Fault::MadeLimited, "the cells made limited", 500),
    (
        Fault::InnerForgotten,
        "a constructor of an inner call forgotten when that ends",
        2000,
    ),
    (
        Fault::OwnCellKeeps,
        "cells kept for a constructor in the call's own cell",
        500,
    ),
    (
        Fault::CellBelowForgotten,
        "a constructor in the cell just below the call's own forgotten",
        500,
    ),
    (
        Fault::ConstructorNeverKeeps,
        "cells given back though a constructor was remembered in an older one",
        500,
    ),
    (
        Fault::NumberKeeps,
        "cells kept for a number remembered in an older one",
        500,
    ),
    (
        Fault::RecallKeeps,
        "cells kept for a constructor recalled from an older one",
        500,
    ),
    (
        Fault::GivenBackCleared,
        "the bytes of cells given back cleared",
        500,
    ),
    (
        Fault::EntriesUsedAgain,
        "the entries of a cell used again left as they were",
        500,
    ),
];
