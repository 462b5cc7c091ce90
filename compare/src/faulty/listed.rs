//! The deliberate faults, each with its description; those in what cells
//! remember are in `listed_remembering.rs`, those in giving cells back in
//! `listed_giving.rs`, those in the run for a hirer in `listed_hirer.rs`, those
//! in the driver's view in `listed_view.rs`, those in typed sheets in
//! `listed_typing.rs`, those in a search in `listed_search.rs`, those in a sheet
//! in canonical form in `listed_canonical.rs`.

use super::fault::Fault;
use super::listed_canonical::CANONICAL;
use super::listed_giving::GIVING;
use super::listed_hirer::HIRER;
use super::listed_remembering::REMEMBERING;
use super::listed_search::SEARCH;
use super::listed_typing::TYPING;
use super::listed_view::VIEW;

/// Faults that the runs with a label for each call alone have to find, with
/// both sides wrong alike.
pub const AGAINST_LABELLING: &[Fault] = &[
    Fault::LabelsRestart,
    Fault::LabelSkipped,
    Fault::FunctionsShare,
    Fault::ParameterOfAnyFunction,
    Fault::ParameterAtAnyPosition,
    Fault::PatternOfAnyScrutinee,
];

/// Faults that call by name alone has to find, with both sides wrong alike.
pub const AGAINST_MEANING: &[Fault] = &[
    Fault::LabelsRestart,
    Fault::LabelSkipped,
    Fault::FunctionsShare,
    Fault::ParameterOfAnyFunction,
    Fault::ParameterAtAnyPosition,
    Fault::PatternOfAnyScrutinee,
    Fault::WholeContext,
    Fault::SelectingContext,
    Fault::FieldsBuilt,
    Fault::IndexNotRaised,
    Fault::DivideDown,
    Fault::LowestByMinusOne,
    Fault::SaturatingAdd,
    Fault::SumOverflow,
    Fault::ProductReduced,
    Fault::FirstClause,
    Fault::RightBeforeCheck,
    Fault::UnsignedLess,
    Fault::NextPosition,
    Fault::EntriesUsed,
    Fault::ContextForNode,
    Fault::ConstructorGivesBack,
    Fault::InnerForgotten,
    Fault::CellBelowForgotten,
    Fault::ConstructorNeverKeeps,
    Fault::EntriesUsedAgain,
    Fault::BatchRowReadings,
    Fault::BatchRecordPlace,
];

/// A fault with its description and the number of sheets (and as many damaged
/// files) within which it must be found.
pub type Listed = (Fault, &'static str, u64);

pub fn all() -> impl Iterator<Item = Listed> {
    let runs = OWNER.iter().chain(REMEMBERING).chain(GIVING);
    let calls = runs.chain(HIRER).chain(VIEW).chain(TYPING);
    calls.chain(SEARCH).chain(CANONICAL).copied()
}

const OWNER: &[Listed] = &[
    (
        Fault::LabelsRestart,
        "labels restarted in each function",
        500,
    ),
    (Fault::LabelForEachCall, "a label for each call", 500),
    (
        Fault::LabelSkipped,
        "a label skipped where a call shares one",
        500,
    ),
    (
        Fault::LastCallListed,
        "the arguments of the last equal call listed",
        500,
    ),
    (
        Fault::FunctionsShare,
        "calls of two functions share a label",
        500,
    ),
    (
        Fault::CallersApart,
        "equal calls in two functions kept apart",
        500,
    ),
    (
        Fault::NoArgumentsApart,
        "calls without arguments kept apart",
        500,
    ),
    (
        Fault::ParameterOfAnyFunction,
        "a parameter of another function taken for equal",
        500,
    ),
    (
        Fault::ParameterAtAnyPosition,
        "a parameter at another position taken for equal",
        500,
    ),
    (
        Fault::PatternOfAnyScrutinee,
        "a pattern variable compared by its position alone",
        500,
    ),
    (
        Fault::PatternOfOneFunction,
        "pattern variables of equal scrutinees in two functions kept apart",
        2000,
    ),
    (
        Fault::ScrutineeAboveApart,
        "pattern variables below the number of their scrutinee kept apart",
        500,
    ),
    (
        Fault::WholeContext,
        "an actual visited under the whole context",
        500,
    ),
    (
        Fault::SelectingContext,
        "a field visited under the selecting context",
        500,
    ),
    (Fault::FieldsBuilt, "fields visited when built", 500),
    (Fault::StoppedCounted, "a stopped visit counted", 500),
    (Fault::NestingFirst, "12 before 11", 5000),
    (Fault::IndexNotRaised, "select's index not raised", 500),
    (Fault::DivideDown, "division rounding down", 2000),
    (
        Fault::LowestByMinusOne,
        "lowest number by -1 gives 0",
        20000,
    ),
    (Fault::SaturatingAdd, "add kept inside the range", 2000),
    (Fault::SumOverflow, "20 for a sum out of range", 2000),
    (Fault::ProductReduced, "a product out of range reduced", 500),
    (
        Fault::RangeTop,
        "a product of 2,147,483,648 taken for a number",
        2000,
    ),
    (
        Fault::RangeBottom,
        "20 for a product of -2,147,483,648",
        2000,
    ),
    (Fault::ArgumentsFirst, "7 before 5 at one record", 20000),
    (Fault::PlaceOffByOne, "a node's place off by one", 500),
    (
        Fault::PastLength,
        "bytes past the translation's length touched",
        500,
    ),
    (
        Fault::CellsCleared,
        "bytes past the cells made touched",
        500,
    ),
    (Fault::FirstClause, "first clause taken", 500),
    (Fault::LastClause, "last clause with the tag taken", 10000),
    (
        Fault::TruncatedBeforeKind,
        "1 for a record cut short before 3 for its kind and length",
        5000,
    ),
    (
        Fault::LeftOverPlace,
        "bytes left over placed at the last record",
        500,
    ),
    (Fault::SumPlace, "a wrong sum placed at the head", 500),
    (
        Fault::OwnFunctionCount,
        "references from other functions not counted",
        5000,
    ),
    (
        Fault::ClauseOrderLoose,
        "equal clause constructors accepted",
        10000,
    ),
    (
        Fault::ClauseOrderLate,
        "clause order checked after all child rules",
        20000,
    ),
    (
        Fault::PatternArityLoose,
        "pattern position equal to the arity accepted",
        2000,
    ),
    (
        Fault::PatternInScrutinee,
        "pattern variable in the scrutinee accepted",
        10000,
    ),
    (
        Fault::RightBeforeCheck,
        "right operand visited before the left is checked",
        2000,
    ),
    (Fault::NoActualNoField, "18 and 19 exchanged", 1000),
    (Fault::CellLimit, "one cell too many allowed", 1000),
    (Fault::NestingLimit, "one open visit too many allowed", 500),
    (Fault::AllowanceFirst, "10 before 9", 2000),
    (
        Fault::JoinedReadingsFirst,
        "9 before 8 in the joined call",
        5000,
    ),
    (
        Fault::RefusedStillWrites,
        "a refused translation writes",
        500,
    ),
    (
        Fault::LengthJustEnough,
        "8 for a stated length that is just enough",
        500,
    ),
    (
        Fault::LengthOneShort,
        "no 8 for a stated length one byte below",
        500,
    ),
    (
        Fault::LengthPlaceLost,
        "a refusal at place 0 where the length is asked",
        500,
    ),
    (
        Fault::LengthIn32Bits,
        "the stated length cut to 32 bits",
        500,
    ),
    (
        Fault::LengthShortFirst,
        "8 before the sheet's own refusal where the length is asked",
        500,
    ),
    (Fault::ListOldestFirst, "labels listed oldest first", 500),
    (
        Fault::ListPlace,
        "listing's place is the previous number",
        500,
    ),
    (Fault::ListPartCell, "a part of a cell listed", 5000),
    (
        Fault::SizeLimit,
        "a file of the greatest size refused",
        10000,
    ),
    (Fault::UnsignedLess, "less compares without sign", 2000),
    (
        Fault::BatchRowReadings,
        "a row run on the readings of the row before",
        500,
    ),
    (
        Fault::BatchRecordPlace,
        "the records of two rows exchanged",
        500,
    ),
    (Fault::BatchAllowanceFirst, "10 before 9 in a batch", 2000),
    (Fault::BatchRoomFirst, "8 before 9 in a batch", 2000),
    (Fault::BatchRoomSecond, "8 before 10 in a batch", 2000),
    (
        Fault::BatchRoomBeforeFile,
        "8 before the file's own refusal in a batch",
        2000,
    ),
    (
        Fault::BatchRunBeforeRoom,
        "a row run before 8 is known",
        2000,
    ),
    (
        Fault::BatchPastRecords,
        "bytes past the records touched",
        500,
    ),
    (
        Fault::BatchCountedTo16,
        "readings due for 16 rows where there are more",
        2000,
    ),
    (
        Fault::BatchProductWrapped,
        "rows times readings on 32 bits",
        10000,
    ),
    (Fault::BatchRowLimit, "17 rows run", 2000),
    (Fault::BatchEmptyUnchecked, "0 rows not checked", 2000),
    (Fault::BatchCellsCleared, "cells cleared between rows", 2000),
    (Fault::BatchStepsShared, "steps shared between rows", 500),
    (
        Fault::BatchEndsEarly,
        "no row run after a stop or a fault",
        500,
    ),
];
