//! What a driver's view has to be beside the view of another record (document
//! 02, request 10): the same six bytes exactly if both records are the same
//! number or neither is a number.

use crate::call::{inner, After, Call};
use crate::interface::{count, shown, Interface};
use crate::model::answer::Answer;
use crate::model::driver_view::viewed_answer;
use zifnora::numbers::{is_fault, is_none, is_refusal, is_stop, is_value, NUMBER};
use zifnora::sizes::VIEW_BYTES;

/// What two accepted records are to each other.
#[derive(Clone, Copy, Debug, PartialEq, Eq)]
pub enum Pair {
    Different,
    SameNumber,
    NoNumber,
}

/// Describes how the views of a pair of records are not as the pair is.
pub fn differing_pair(call: &Call, after: &After, on: &dyn Interface) -> Option<String> {
    let (pair, again) = (pair(call)?, other_view(call)?.perform(on));
    for after in [after, &again] {
        if count(after.code) != Some(VIEW_BYTES) {
            return Some(format!("one of a pair: answer {}", shown(after.code)));
        }
    }
    let [one, other] = [after, &again].map(|after| &inner(&after.out)[..VIEW_BYTES]);
    let right = (one == other) == (pair != Pair::Different);
    (!right).then(|| format!("a pair ({pair:?}): {one:?} and {other:?}"))
}

/// The view of the other record, in an output whose earlier bytes are all
/// others.
fn other_view(call: &Call) -> Option<Call> {
    let Call::View { record, out, other } = call else {
        return None;
    };
    Some(Call::View {
        record: other.clone(),
        out: out.iter().map(|byte| !byte).collect(),
        other: record.clone(),
    })
}

/// The pair that a call views; none where it is no view, or where one of the
/// two is refused.
pub fn pair(call: &Call) -> Option<Pair> {
    let Call::View { record, out, other } = call else {
        return None;
    };
    let number = |answer: Answer| (answer.outcome == NUMBER).then_some(answer.value);
    let one = number(accepted(record, out)?);
    let other = number(accepted(other, out)?);
    Some(match (one, other) {
        (Some(one), Some(other)) if one == other => Pair::SameNumber,
        (None, None) => Pair::NoNumber,
        _ => Pair::Different,
    })
}

/// The outcome of the record that a call views; none where it is no view, or
/// is refused.
pub fn outcome(call: &Call) -> Option<u16> {
    let Call::View { record, out, .. } = call else {
        return None;
    };
    accepted(record, out).map(|answer| answer.outcome)
}

/// Whether an outcome is one of the table's numbers or a value.
pub fn in_table(outcome: u16) -> bool {
    let ended = is_value(outcome) || is_stop(outcome) || is_fault(outcome);
    ended || is_refusal(outcome) || is_none(outcome)
}

/// What a record says whose view is not refused.
fn accepted(record: &[u8], out: &[u8]) -> Option<Answer> {
    viewed_answer(record).filter(|_| out.len() >= VIEW_BYTES)
}
