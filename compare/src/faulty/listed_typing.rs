//! The deliberate faults in typed sheets, each with its description.

use super::fault::Fault;
use super::listed::Listed;

/// Faults that the runs of typed sheets alone have to find, with both sides wrong
/// alike: some run ends with 14 or 15.
pub const AGAINST_TYPED_RUNS: &[Fault] = &[
    Fault::OwnTypeZero,
    Fault::BodyUnchecked,
    Fault::ClauseNodeUnchecked,
    Fault::NumberScrutinee,
    Fault::ArgumentsUnchecked,
    Fault::ArgumentsShifted,
    Fault::FieldsUnchecked,
    Fault::FieldsShifted,
    Fault::ThirdNodeUnchecked,
    Fault::SecondNodeUnchecked,
    Fault::ConditionUnchecked,
    Fault::LeftUnchecked,
    Fault::RightUnchecked,
    Fault::CallAsNumber,
    Fault::CallOfCaller,
    Fault::ParameterNextPosition,
    Fault::PatternAsNumber,
    Fault::PatternNextPosition,
    Fault::PatternOfFirstClause,
];

/// Faults that sheets with their types removed alone have to find, with both
/// sides wrong alike.
pub const AGAINST_TYPES_REMOVED: &[Fault] = &[
    Fault::TypedCallsApart,
    Fault::ResultTypeAsParameters,
    Fault::TypedLengthLonger,
];

pub const TYPING: &[Listed] = &[
    (
        Fault::TypedByConstructors,
        "a sheet without constructors taken for untyped",
        500,
    ),
    (
        Fault::UntypedConstructorMixed,
        "kind 2 accepted in a typed sheet",
        5000,
    ),
    (
        Fault::UntypedFunctionMixed,
        "kind 3 accepted in a typed sheet",
        5000,
    ),
    (
        Fault::TypedConstructorMixed,
        "kind 6 accepted in an untyped sheet",
        2000,
    ),
    (
        Fault::TypedFunctionMixed,
        "kind 7 accepted in an untyped sheet",
        2000,
    ),
    (
        Fault::MixedAtFirst,
        "mixed records placed at record 1",
        2000,
    ),
    (Fault::OwnTypeZero, "own type 0 accepted", 2000),
    (Fault::TypeAboveRange, "type 65 accepted", 5000),
    (Fault::TypeAtTopRefused, "type 64 refused", 500),
    (
        Fault::TypeZeroRefused,
        "type 0 of a field, a parameter or a result refused",
        500,
    ),
    (
        Fault::TypeLowByte,
        "the low byte of a type alone looked at",
        5000,
    ),
    (
        Fault::ConstructorTypesLonger,
        "more field types than the arity accepted",
        5000,
    ),
    (
        Fault::ConstructorTypesShorter,
        "fewer field types than the arity accepted",
        5000,
    ),
    (
        Fault::FunctionTypesLonger,
        "more parameter types than parameters accepted",
        5000,
    ),
    (
        Fault::FunctionTypesShorter,
        "fewer parameter types than parameters accepted",
        5000,
    ),
    (
        Fault::TypesCountAsLength,
        "3 for a count that doesn't match a typed record's length",
        2000,
    ),
    (
        Fault::TypedLengthAsCount,
        "4 for the wrong length of a typed record",
        2000,
    ),
    (
        Fault::TypedResultParameters,
        "parameters of `result` accepted in a typed sheet",
        10000,
    ),
    (
        Fault::TypesBeforeTree,
        "22 of a node before 6 of a later one",
        10000,
    ),
    (
        Fault::TypesBeforePatterns,
        "22 before the pattern rules",
        5000,
    ),
    (Fault::TypesAfterRoom, "8 before 22", 500),
    (
        Fault::IllTypedNodePlace,
        "22 placed at the node's number",
        500,
    ),
    (
        Fault::IllTypedLast,
        "22 placed at the last node that breaks a rule",
        500,
    ),
    (
        Fault::ClauseNodeAtCase,
        "22 for a clause's node placed at the case",
        500,
    ),
    (
        Fault::PartAtItself,
        "22 for an operand, argument or field placed at itself",
        500,
    ),
    (
        Fault::BodyAtFunction,
        "22 for a body placed at its function's record",
        500,
    ),
    (
        Fault::BodyUnchecked,
        "a body's type not compared with its function's result type",
        500,
    ),
    (
        Fault::ClauseNodeUnchecked,
        "the type of a clause's node not compared",
        500,
    ),
    (
        Fault::FirstClauseNodeOnly,
        "the type of the first clause's node alone compared",
        5000,
    ),
    (
        Fault::ClauseOfAnyType,
        "a clause of another type accepted",
        2000,
    ),
    (
        Fault::FirstClauseOnly,
        "the first clause's constructor alone compared",
        5000,
    ),
    (
        Fault::NumberScrutinee,
        "a scrutinee of type 0 accepted",
        5000,
    ),
    (Fault::MissingClauseRefused, "22 for a missing clause", 500),
    (
        Fault::ArgumentsUnchecked,
        "the types of arguments not compared",
        500,
    ),
    (
        Fault::LastArgumentUnchecked,
        "the type of the last argument not compared",
        2000,
    ),
    (
        Fault::ArgumentsShifted,
        "the types of arguments compared one position off",
        500,
    ),
    (
        Fault::FieldsUnchecked,
        "the types of built fields not compared",
        500,
    ),
    (
        Fault::LastFieldUnchecked,
        "the type of the last built field not compared",
        500,
    ),
    (
        Fault::FieldsShifted,
        "the types of built fields compared one position off",
        500,
    ),
    (
        Fault::ThirdNodeUnchecked,
        "the third node of an if not compared",
        2000,
    ),
    (
        Fault::SecondNodeUnchecked,
        "the second node of an if not compared, its type that of the third",
        5000,
    ),
    (
        Fault::ConditionUnchecked,
        "the type of a condition not compared",
        5000,
    ),
    (
        Fault::LeftUnchecked,
        "the type of a left operand not compared",
        2000,
    ),
    (
        Fault::RightUnchecked,
        "the type of a right operand not compared",
        2000,
    ),
    (
        Fault::ResultNotNumber,
        "22 for a `result` of another type than 0",
        500,
    ),
    (
        Fault::DataTypesAlike,
        "all types from 1 on taken for one",
        2000,
    ),
    (Fault::CallAsNumber, "a call taken for type 0", 500),
    (
        Fault::CallOfCaller,
        "a call taken for its caller's result type",
        500,
    ),
    (
        Fault::BuildByConstructor,
        "a build taken for the type of its constructor's number",
        500,
    ),
    (Fault::CaseAsNumber, "a case taken for type 0", 500),
    (
        Fault::ParameterNextPosition,
        "a parameter's type taken one position off",
        500,
    ),
    (
        Fault::PatternAsNumber,
        "a pattern variable taken for type 0",
        500,
    ),
    (
        Fault::PatternNextPosition,
        "a pattern variable's type taken one position off",
        500,
    ),
    (
        Fault::PatternOfFirstClause,
        "a pattern variable's type taken from the first clause's constructor",
        500,
    ),
    (
        Fault::TypedCallsApart,
        "a label for each call of a typed sheet",
        500,
    ),
    (
        Fault::ResultTypeAsParameters,
        "a result type written in place of a parameter count",
        500,
    ),
    (
        Fault::TypedLengthLonger,
        "the bytes of types counted where the length is asked",
        500,
    ),
];
