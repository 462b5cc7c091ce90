//! The deliberate faults in a sheet in canonical form, each with its description.

use super::fault::Fault;
use super::listed::Listed;

/// Faults that the sheet's reader alone has to find, with both sides wrong alike.
pub const AGAINST_READER: &[Fault] = &[
    Fault::CanonicalNodeFirst,
    Fault::CanonicalMixed,
    Fault::CanonicalReferenceLeft,
    Fault::CanonicalClauseReferenceLeft,
    Fault::CanonicalRelative,
    Fault::CanonicalClauseRenumbered,
    Fault::CanonicalCalleeRenumbered,
    Fault::CanonicalPositionRenumbered,
    Fault::CanonicalReadingsCounted,
    Fault::CanonicalTypesRemoved,
    Fault::CanonicalTypesRenumbered,
    Fault::CanonicalOneShort,
    Fault::CanonicalJustEnough,
    Fault::CanonicalTranslationDue,
    Fault::CanonicalShortFirst,
    Fault::CanonicalShortBeforeTypes,
    Fault::CanonicalShortPlaced,
    Fault::CanonicalPlaceLost,
    Fault::CanonicalIllTypedWritten,
    Fault::CanonicalRefusedWrites,
    Fault::CanonicalShortWrites,
    Fault::CanonicalPastWritten,
    Fault::CanonicalZeroReturned,
    Fault::CanonicalRoomReturned,
    Fault::ScrutineeAboveApart,
];

/// Faults that the canonical form written again alone has to find, with both
/// sides wrong alike.
pub const AGAINST_AGAIN: &[Fault] = &[
    Fault::CanonicalByNumberDown,
    Fault::CanonicalNodeFirst,
    Fault::CanonicalMixed,
    Fault::CanonicalOperandsExchanged,
    Fault::CanonicalLastUnwritten,
];

/// Faults that pairs of sheets alone have to find, with both sides wrong alike.
pub const AGAINST_CANONICAL_PAIRS: &[Fault] = &[
    Fault::CanonicalUnchanged,
    Fault::CanonicalTypedUnchanged,
    Fault::CanonicalResultOnly,
    Fault::CanonicalByNumber,
    Fault::CanonicalByNumberDown,
    Fault::CanonicalNumberRight,
    Fault::CanonicalNumberIn16Bits,
    Fault::CanonicalReadingsCounted,
    Fault::CanonicalTypesRemoved,
    Fault::CanonicalTypesRenumbered,
    Fault::CanonicalLastUnwritten,
];

/// Faults that the runs of sheets in canonical form alone have to find, with both
/// sides wrong alike.
pub const AGAINST_CANONICAL_RUNS: &[Fault] = &[
    Fault::CanonicalRunsExchanged,
    Fault::CanonicalClauseRenumbered,
    Fault::CanonicalCalleeRenumbered,
    Fault::CanonicalPositionRenumbered,
    Fault::CanonicalOperandsExchanged,
    Fault::CanonicalNumberRight,
    Fault::CanonicalNumberIn16Bits,
    Fault::CanonicalReadingsCounted,
];

pub const CANONICAL: &[Listed] = &[
    (
        Fault::CanonicalRightToLeft,
        "children right to left in canonical form",
        500,
    ),
    (
        Fault::CanonicalRightFirst,
        "the right operand before the left in canonical form",
        500,
    ),
    (
        Fault::CanonicalConditionLast,
        "the condition of an if after its other nodes in canonical form",
        500,
    ),
    (
        Fault::CanonicalArgumentsReversed,
        "the arguments of a call from the last on in canonical form",
        500,
    ),
    (
        Fault::CanonicalFieldsReversed,
        "the fields of a build from the last on in canonical form",
        500,
    ),
    (
        Fault::CanonicalClausesFirst,
        "the clauses before the scrutinee in canonical form",
        500,
    ),
    (
        Fault::CanonicalClausesReversed,
        "the clauses from the last on in canonical form",
        500,
    ),
    (
        Fault::CanonicalUnchanged,
        "the nodes left in their order",
        500,
    ),
    (
        Fault::CanonicalTypedUnchanged,
        "the nodes of a typed sheet left in their order",
        500,
    ),
    (
        Fault::CanonicalResultOnly,
        "the nodes of `result` alone put in order",
        500,
    ),
    (
        Fault::CanonicalByNumber,
        "children in the order of the numbers that they had",
        500,
    ),
    (
        Fault::CanonicalByNumberDown,
        "children from the highest number that they had down",
        500,
    ),
    (
        Fault::CanonicalByHeight,
        "leaves first, then their parents, in canonical form",
        500,
    ),
    (
        Fault::CanonicalNodeFirst,
        "a node before its children in canonical form",
        500,
    ),
    (
        Fault::CanonicalMixed,
        "a function's nodes mixed with another's",
        500,
    ),
    (
        Fault::CanonicalRunsExchanged,
        "the nodes of two functions exchanged in canonical form",
        500,
    ),
    (
        Fault::CanonicalDeepLeft,
        "the nodes of a deep function left in their order",
        2000,
    ),
    (
        Fault::CanonicalReferenceLeft,
        "a reference left at its old number",
        500,
    ),
    (
        Fault::CanonicalClauseReferenceLeft,
        "a reference to a clause's node left at its old number",
        500,
    ),
    (
        Fault::CanonicalReferenceIn8Bits,
        "a reference cut to 8 bits in canonical form",
        2000,
    ),
    (
        Fault::CanonicalRelative,
        "references counted from the function's first node",
        500,
    ),
    (
        Fault::CanonicalClauseRenumbered,
        "a clause's constructor renumbered like a node",
        500,
    ),
    (
        Fault::CanonicalCalleeRenumbered,
        "the function of a call renumbered like a node",
        500,
    ),
    (
        Fault::CanonicalPositionRenumbered,
        "the position of a parameter renumbered like a node",
        500,
    ),
    (
        Fault::CanonicalOperandsExchanged,
        "the operands of an operator exchanged in canonical form",
        500,
    ),
    (
        Fault::CanonicalNumberRight,
        "a number made the right operand of a sum",
        500,
    ),
    (
        Fault::CanonicalNumberIn16Bits,
        "a number cut to 16 bits in canonical form",
        500,
    ),
    (
        Fault::CanonicalReadingsCounted,
        "the readings of the head counted by the nodes",
        500,
    ),
    (
        Fault::CanonicalTypesRemoved,
        "types left out in canonical form",
        500,
    ),
    (
        Fault::CanonicalTypesRenumbered,
        "types numbered in their order in canonical form",
        500,
    ),
    (
        Fault::CanonicalOneShort,
        "no 8 for an output one byte shorter than the sheet",
        500,
    ),
    (
        Fault::CanonicalJustEnough,
        "8 for an output just as long as the sheet",
        500,
    ),
    (
        Fault::CanonicalGreatestDue,
        "8 for an output shorter than the longest sheet",
        500,
    ),
    (
        Fault::CanonicalTranslationDue,
        "8 for an output shorter than the translation in canonical form",
        500,
    ),
    (
        Fault::CanonicalRoomIn16Bits,
        "the output's length cut to 16 bits in canonical form",
        5000,
    ),
    (
        Fault::CanonicalShortFirst,
        "8 before the sheet's own refusal in canonical form",
        500,
    ),
    (
        Fault::CanonicalShortBeforeTypes,
        "8 before 22 in canonical form",
        500,
    ),
    (
        Fault::CanonicalShortPlaced,
        "8 placed at the sheet's length",
        500,
    ),
    (
        Fault::CanonicalPlaceLost,
        "a refusal at place 0 in canonical form",
        500,
    ),
    (
        Fault::CanonicalIllTypedWritten,
        "an ill typed sheet put in canonical form",
        500,
    ),
    (
        Fault::CanonicalRefusedWrites,
        "a refused sheet written",
        500,
    ),
    (
        Fault::CanonicalShortWrites,
        "the start of a canonical form written with 8",
        500,
    ),
    (
        Fault::CanonicalPastWritten,
        "the byte past the canonical form touched",
        500,
    ),
    (
        Fault::CanonicalLastUnwritten,
        "the last byte of the canonical form not written",
        500,
    ),
    (
        Fault::CanonicalZeroReturned,
        "0 returned for a canonical form",
        500,
    ),
    (
        Fault::CanonicalRoomReturned,
        "the output's length returned for a canonical form",
        500,
    ),
];
