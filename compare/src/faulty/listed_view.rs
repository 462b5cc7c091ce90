//! The deliberate faults in the driver's view, each with its description.

use super::fault::Fault;
use super::listed::Listed;

/// Faults that pairs of records alone have to find, with both sides wrong
/// alike.
pub const AGAINST_PAIRS: &[Fault] = &[
    Fault::ViewTagAsNumber,
    Fault::ViewTagAfterOne,
    Fault::ViewNodeAfterOne,
    Fault::ViewFaultAsZero,
    Fault::ViewStopAsZero,
    Fault::ViewStepsAfterOne,
    Fault::ViewRefusalAsZero,
    Fault::ViewPlaceAfterOne,
    Fault::ViewOutcomeFirst,
    Fault::ViewOutcomeAfterOne,
    Fault::ViewUnknownAsNumber,
    Fault::ViewUnknownAsZero,
    Fault::ViewOutcomeLowByte,
    Fault::ViewNegativeHidden,
    Fault::ViewZeroHidden,
    Fault::ViewStepsShown,
    Fault::ViewNumberIn16Bits,
    Fault::ViewNumberAfterOne,
    Fault::ViewZerosNotWritten,
];

pub const VIEW: &[Listed] = &[
    (
        Fault::ViewTagAsNumber,
        "a constructor shown as the number of its tag",
        500,
    ),
    (
        Fault::ViewTagAfterOne,
        "a constructor's tag shown after the 1",
        500,
    ),
    (
        Fault::ViewNodeAfterOne,
        "a constructor's node and context shown after the 1",
        500,
    ),
    (
        Fault::ViewFaultAsZero,
        "a run fault shown as the number 0",
        500,
    ),
    (Fault::ViewStopAsZero, "a stop shown as the number 0", 500),
    (
        Fault::ViewStepsAfterOne,
        "the steps of a stop shown after the 1",
        500,
    ),
    (
        Fault::ViewRefusalAsZero,
        "a refusal shown as the number 0",
        500,
    ),
    (
        Fault::ViewPlaceAfterOne,
        "a refusal's place shown after the 1",
        500,
    ),
    (
        Fault::ViewOutcomeFirst,
        "the outcome shown in place of the 1",
        500,
    ),
    (
        Fault::ViewOutcomeAfterOne,
        "the outcome shown after the 1",
        500,
    ),
    (
        Fault::ViewUnknownAsNumber,
        "an outcome outside the table taken for a number",
        500,
    ),
    (
        Fault::ViewUnknownAsZero,
        "an outcome outside the table shown as the number 0",
        500,
    ),
    (
        Fault::ViewOutcomeLowByte,
        "the low byte of the outcome alone looked at",
        500,
    ),
    (Fault::ViewOneReversed, "the bytes of the 1 exchanged", 500),
    (
        Fault::ViewNegativeHidden,
        "a negative number not shown",
        500,
    ),
    (Fault::ViewZeroHidden, "the number 0 not shown", 500),
    (
        Fault::ViewStepsShown,
        "the steps shown in place of the number",
        500,
    ),
    (
        Fault::ViewNumberIn16Bits,
        "16 bits of the number shown",
        500,
    ),
    (
        Fault::ViewNumberReversed,
        "the bytes of the number in the other order",
        500,
    ),
    (Fault::ViewNumberAfterOne, "a number shown after the 1", 500),
    (
        Fault::ViewZerosNotWritten,
        "the four zero bytes after the 1 not written",
        500,
    ),
    (
        Fault::ViewLengthUnchecked,
        "the length field of a viewed record not looked at",
        500,
    ),
    (
        Fault::ViewLengthLowByte,
        "the low byte of a viewed record's length field alone looked at",
        500,
    ),
    (
        Fault::ViewKindUnchecked,
        "the kind field of a viewed record not looked at",
        500,
    ),
    (
        Fault::ViewKindLowByte,
        "the low byte of a viewed record's kind field alone looked at",
        500,
    ),
    (
        Fault::ViewLongerTaken,
        "more than 20 bytes viewed as a record",
        500,
    ),
    (
        Fault::ViewCutTaken,
        "a record cut after its value viewed",
        500,
    ),
    (
        Fault::ViewStatedLengthTaken,
        "a record of another length viewed where its length field has it",
        500,
    ),
    (
        Fault::ViewLentIn16Bits,
        "the length of the lent bytes cut to 16 bits",
        2000,
    ),
    (Fault::ViewShortFirst, "8 before 3 in a view", 500),
    (
        Fault::ViewKindPlaced,
        "3 for the kind field at place 1",
        500,
    ),
    (Fault::ViewFiveBytes, "a view written into 5 bytes", 500),
    (Fault::ViewSevenBytes, "8 for a view in 6 bytes", 500),
    (
        Fault::ViewRoomIn8Bits,
        "the length of a view's output cut to 8 bits",
        2000,
    ),
    (
        Fault::ViewRoomIn16Bits,
        "the length of a view's output cut to 16 bits",
        2000,
    ),
    (
        Fault::ViewBadRecordWritten,
        "a view that is refused with 3 written",
        500,
    ),
    (
        Fault::ViewShortWritten,
        "a view that is refused with 8 written",
        500,
    ),
    (Fault::ViewPastWritten, "a byte past a view touched", 500),
    (Fault::ViewZeroReturned, "0 returned for a view", 500),
    (
        Fault::ViewRoomReturned,
        "the length of the output returned for a view",
        500,
    ),
];
