//! The deliberate faults in a search, each with its description.

use super::fault::Fault;
use super::listed::Listed;

/// Faults that single runs in turn alone have to find, with both sides wrong
/// alike.
pub const AGAINST_SINGLE: &[Fault] = &[
    Fault::SearchManyValues,
    Fault::SearchFewValues,
    Fault::SearchInvertedNone,
    Fault::SearchCountWrapped,
    Fault::SearchPositionAtCount,
    Fault::SearchRangeBeforeReadings,
    Fault::SearchRangeBeforeAllowance,
    Fault::SearchLargest,
    Fault::SearchHighestUntried,
    Fault::SearchPreviousValue,
    Fault::SearchStepsShared,
    Fault::SearchStopEnds,
    Fault::SearchStopCounted,
    Fault::SearchFaultCounted,
    Fault::SearchTagCounted,
    Fault::SearchCellsRestored,
    Fault::SearchFoundCellsMissing,
    Fault::SearchOneRunMore,
    Fault::SearchNoneRestored,
    Fault::SearchRefusedRuns,
    Fault::SearchSignExtended,
    Fault::SearchNoneAsZero,
];

/// Faults that call by name of the value found alone has to find, with both
/// sides wrong alike.
pub const AGAINST_FOUND: &[Fault] = &[
    Fault::SearchPositionAtCount,
    Fault::SearchPreviousValue,
    Fault::SearchNextPosition,
    Fault::SearchOthersZero,
    Fault::SearchStopCounted,
    Fault::SearchFaultCounted,
    Fault::SearchTagCounted,
    Fault::SearchAtLeast,
    Fault::SearchWantedIn16Bits,
    Fault::SearchValueIn16Bits,
    Fault::SearchOffsetReturned,
    Fault::SearchWantedReturned,
    Fault::SearchNoneAsZero,
];

pub const SEARCH: &[Listed] = &[
    (
        Fault::SearchManyValues,
        "1,025 values tried in a search",
        500,
    ),
    (
        Fault::SearchFewValues,
        "a search of 1,024 values refused",
        5000,
    ),
    (
        Fault::SearchOneValueRefused,
        "a search of one value refused",
        500,
    ),
    (
        Fault::SearchInvertedNone,
        "24 where the lowest value is above the highest",
        500,
    ),
    (
        Fault::SearchInvertedTurned,
        "a range turned round where the lowest value is above the highest",
        500,
    ),
    (
        Fault::SearchUnsignedRange,
        "lowest and highest value compared without sign",
        500,
    ),
    (
        Fault::SearchCountWrapped,
        "the values of a search counted on 32 bits",
        500,
    ),
    (
        Fault::SearchCountIn16Bits,
        "the values of a search counted on 16 bits",
        2000,
    ),
    (
        Fault::SearchPositionAtCount,
        "a search at the position after the last reading",
        500,
    ),
    (
        Fault::SearchPositionUnchecked,
        "a search at any position",
        500,
    ),
    (
        Fault::SearchPositionIn5Bits,
        "the position of a search cut to 5 bits",
        2000,
    ),
    (
        Fault::SearchPositionIn8Bits,
        "the position of a search cut to 8 bits",
        2000,
    ),
    (
        Fault::SearchPositionIn16Bits,
        "the position of a search cut to 16 bits",
        2000,
    ),
    (
        Fault::SearchLastPosition,
        "a search at the last reading refused",
        500,
    ),
    (Fault::SearchPlaced, "23 placed at the position", 500),
    (
        Fault::SearchRangeBeforeFile,
        "23 before the file's own refusal",
        2000,
    ),
    (Fault::SearchRangeBeforeReadings, "23 before 9", 2000),
    (Fault::SearchRangeBeforeAllowance, "23 before 10", 2000),
    (
        Fault::SearchPositionBeforeAllowance,
        "23 for the position before 10",
        2000,
    ),
    (Fault::SearchAllowanceFirst, "10 before 9 in a search", 2000),
    (
        Fault::SearchHighestFirst,
        "the values tried from the highest down",
        500,
    ),
    (Fault::SearchLargest, "the largest value found", 500),
    (
        Fault::SearchHighestUntried,
        "the highest value not tried",
        500,
    ),
    (
        Fault::SearchLowestUntried,
        "the lowest value not tried",
        500,
    ),
    (
        Fault::SearchPastHighest,
        "a value past the highest tried",
        500,
    ),
    (
        Fault::SearchHalved,
        "half of the values left out after each run",
        500,
    ),
    (
        Fault::SearchGivenFirst,
        "the lent reading tried before the range",
        500,
    ),
    (Fault::SearchPreviousValue, "a run on the value before", 500),
    (
        Fault::SearchNextPosition,
        "the reading at the next position changed",
        500,
    ),
    (
        Fault::SearchOthersZero,
        "the other readings taken for 0 in a search",
        500,
    ),
    (Fault::SearchOthersSet, "all readings set to the value", 500),
    (
        Fault::SearchStepsShared,
        "steps shared between the runs of a search",
        500,
    ),
    (
        Fault::SearchStopEnds,
        "no run of a search after a stop",
        500,
    ),
    (
        Fault::SearchFaultEnds,
        "no run of a search after a fault",
        500,
    ),
    (
        Fault::SearchConstructorEnds,
        "no run of a search after a constructor",
        500,
    ),
    (Fault::SearchStopCounted, "a stop counted for 0", 500),
    (Fault::SearchFaultCounted, "a fault counted for 0", 500),
    (
        Fault::SearchTagCounted,
        "a constructor counted for its tag",
        500,
    ),
    (
        Fault::SearchAtLeast,
        "a greater number than the wanted one counted",
        500,
    ),
    (
        Fault::SearchWantedIn16Bits,
        "the wanted number compared on 16 bits",
        500,
    ),
    (Fault::SearchZeroMissed, "0 never found", 500),
    (
        Fault::SearchCellsRestored,
        "the cells restored before each run of a search",
        500,
    ),
    (
        Fault::SearchCellsCleared,
        "the cells cleared between the runs of a search",
        500,
    ),
    (
        Fault::SearchFoundCellsMissing,
        "the cells of the run found not left",
        500,
    ),
    (
        Fault::SearchOneRunMore,
        "one more run after the value found",
        500,
    ),
    (
        Fault::SearchAllRun,
        "all values run after the one found",
        500,
    ),
    (
        Fault::SearchNoneRestored,
        "the cells left as they were with 24",
        500,
    ),
    (
        Fault::SearchFoundRestored,
        "the cells left as they were with a value found",
        500,
    ),
    (Fault::SearchRefusedRuns, "a run before 23 is known", 500),
    (
        Fault::SearchSignExtended,
        "a value below 0 written over the number of the code",
        500,
    ),
    (
        Fault::SearchValueIn16Bits,
        "the value found cut to 16 bits",
        500,
    ),
    (
        Fault::SearchOffsetReturned,
        "the value found counted from the lowest",
        500,
    ),
    (
        Fault::SearchWantedReturned,
        "the wanted number in place of the value found",
        500,
    ),
    (
        Fault::SearchNoneAsZero,
        "0 found where no value does it",
        500,
    ),
    (Fault::SearchNonePlaced, "24 with a place", 500),
    (Fault::SearchNoneRefused, "23 where no value does it", 500),
    (
        Fault::SearchStopReturned,
        "the number of the last run's stop in place of 24",
        500,
    ),
];
