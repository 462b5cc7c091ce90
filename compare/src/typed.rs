//! What a typed sheet that is accepted has to be beside the other side's
//! (document 02, request 11): the calls that translate it leave what they leave
//! for the sheet with its types removed, and no run of it ends with 14 or 15.

use crate::call::{After, Call};
use crate::check::differs;
use crate::generate::damage::HEAD_BYTES;
use crate::interface::{refusal, Interface};
use crate::model::records::two_bytes;
use crate::model::types;
use zifnora::numbers::{is_refusal, is_value, CONSTRUCTOR_WANTED, NUMBER_WANTED};
use zifnora::numbers::{BAD_ARGUMENTS, ILL_TYPED, TRUNCATED};

/// Runs of typed sheets.
#[derive(Clone, Copy, Debug, Default)]
pub struct TypedRuns {
    pub runs: u64,
    /// Those of them that ended with a number or a constructor.
    pub values: u64,
}

impl TypedRuns {
    pub fn add(&mut self, more: TypedRuns) {
        self.runs += more.runs;
        self.values += more.values;
    }
}

/// Whether a sheet is typed, by the kind of its first record after the head.
fn is_typed(sheet: &[u8]) -> bool {
    sheet.len() >= HEAD_BYTES + 4 && types::is_typed(two_bytes(sheet, HEAD_BYTES + 2))
}

/// The typed sheet that a call translates, where it is accepted.
fn accepted<'a>(call: &'a Call, after: &After) -> Option<&'a [u8]> {
    let (sheet, number) = match call {
        Call::Translate { sheet, .. } | Call::Length { sheet, .. } => (sheet, refusal(after.code)),
        Call::Joined { sheet, .. } => (sheet, call.runs(after).first()?.answer.outcome),
        Call::Run { .. } | Call::Hirer { .. } | Call::Rows { .. } => return None,
        Call::Search { .. } | Call::List { .. } | Call::View { .. } => return None,
        Call::Canonical { .. } => return None,
    };
    let refused = (TRUNCATED..=BAD_ARGUMENTS).contains(&number) || number == ILL_TYPED;
    (is_typed(sheet) && !refused).then_some(sheet)
}

/// Whether a call is compared with the same call of a sheet without types.
pub fn has_types_to_remove(call: &Call, after: &After) -> bool {
    accepted(call, after).is_some()
}

/// Describes how a call of a typed sheet differs from the same call of the sheet
/// with its types removed.
pub fn differing_untyped(call: &Call, after: &After, on: &dyn Interface) -> Option<String> {
    let untyped = types::removed(accepted(call, after)?);
    let mut again = call.clone();
    match &mut again {
        Call::Translate { sheet, .. } | Call::Length { sheet, .. } | Call::Joined { sheet, .. } => {
            *sheet = untyped;
        }
        _ => return None,
    }
    differs(["types removed", "typed"], &again.perform(on), after)
}

/// The runs of a call, if its sheet is typed; or what differs where one ends
/// with 14 or 15.
pub fn typed_runs(call: &Call, after: &After) -> Result<TypedRuns, String> {
    let mut counted = TypedRuns::default();
    if !call.source().is_some_and(is_typed) {
        return Ok(counted);
    }
    for run in call.runs(after) {
        let outcome = run.answer.outcome;
        if [NUMBER_WANTED, CONSTRUCTOR_WANTED].contains(&outcome) {
            return Err(format!("run of a typed sheet {:?}", run.answer));
        }
        counted.runs += !is_refusal(outcome) as u64;
        counted.values += is_value(outcome) as u64;
    }
    Ok(counted)
}
