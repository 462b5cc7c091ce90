//! What a hirer's run has to be beside the other side's (document 02, request
//! 5): the same on two lists of readings that agree on the set, and the
//! owner's run where it is not closed.

use crate::call::{inner, After, Call, RunInput};
use crate::check::differs;
use crate::interface::{refusal, Interface};
use crate::model::answer::Answer;
use crate::model::records::two_bytes;
use zifnora::numbers::{CLOSED_READING, OUT_OF_RANGE, TRUNCATED};

/// Describes how a hirer's run differs from the same run on its other
/// readings.
pub fn differing_with_closed(call: &Call, after: &After, on: &dyn Interface) -> Option<String> {
    let again = other_readings(call)?.perform(on);
    differs(["other closed readings", "these"], &again, after)
}

/// Describes how a hirer's run that is not closed differs from the owner's.
pub fn differing_with_owner(call: &Call, after: &After, on: &dyn Interface) -> Option<String> {
    let owners = owners_run(call, after)?.perform(on);
    differs(["owner", "hirer"], &owners, after)
}

/// A hirer's run on its other readings, where these are not the same.
fn other_readings(call: &Call) -> Option<Call> {
    let Call::Hirer {
        of,
        file,
        set,
        input,
        other,
    } = call
    else {
        return None;
    };
    let differ = *other != input.readings;
    differ.then(|| Call::Hirer {
        of: of.clone(),
        file: file.clone(),
        set: *set,
        input: RunInput {
            readings: other.clone(),
            ..input.clone()
        },
        other: input.readings.clone(),
    })
}

/// The owner's run in place of a hirer's that is not closed.
fn owners_run(call: &Call, after: &After) -> Option<Call> {
    let Call::Hirer { file, input, .. } = call else {
        return None;
    };
    (!is_closed(after)).then(|| Call::Run {
        of: None,
        file: file.clone(),
        input: input.clone(),
    })
}

/// The outcome of a run; none where its record is too short.
fn outcome(after: &After) -> Option<u16> {
    let answer = match refusal(after.code) {
        0 => Answer::from_record(inner(&after.record)),
        _ => None,
    };
    answer.map(|answer| answer.outcome)
}

pub fn is_closed(after: &After) -> bool {
    outcome(after) == Some(CLOSED_READING)
}

/// Whether a call is a hirer's run of an accepted translation, with two lists
/// of as many readings as it asks for that differ in closed ones only.
pub fn is_pair(call: &Call, after: &After) -> bool {
    let Call::Hirer {
        file, input, other, ..
    } = call
    else {
        return false;
    };
    let accepted =
        outcome(after).is_some_and(|outcome| !(TRUNCATED..=OUT_OF_RANGE).contains(&outcome));
    accepted && input.readings.len() == two_bytes(file, 4) as usize && *other != input.readings
}
