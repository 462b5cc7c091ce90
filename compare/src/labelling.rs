//! A sheet's run with a label for each call, beside the run that is compared:
//! outcome, value, steps and number of cells are the same (document 02,
//! request 4).

use crate::call::{After, Call, OneRun};
use crate::model::translate::{translate, Labelling};
use crate::model::{translation, Behaviour, Correct};
use zifnora::numbers::SHORT_OUTPUT;

/// The same run of the translation with a label for each call, where two
/// calls of the sheet share one.
pub fn unshared(call: &Call) -> Option<Call> {
    let of = call.sheet()?;
    let sheet = Correct.read_sheet(of).ok()?;
    let each = translate(&Correct, &sheet, Labelling::EachCall);
    if each == translate(&Correct, &sheet, Labelling::EqualCalls) {
        return None;
    }
    let (of, file) = (Some(of.to_vec()), translation::write(&each));
    match call {
        Call::Run { input, .. } | Call::Joined { input, .. } => Some(Call::Run {
            of,
            file,
            input: input.clone(),
        }),
        Call::Rows { rows, input, .. } => Some(Call::Rows {
            of,
            file,
            rows: *rows,
            input: input.clone(),
        }),
        Call::Hirer { .. } | Call::Search { .. } | Call::View { .. } => None,
        Call::Translate { .. } | Call::Length { .. } | Call::List { .. } => None,
        Call::Canonical { .. } => None,
    }
}

/// Describes the first run of a call that is not as that of `each`, the call
/// with a label for each call.
pub fn differing_run(call: &Call, after: &After, each: &Call, before: &After) -> Option<String> {
    if after.code != before.code {
        return Some(format!("returned {}, now {}", before.code, after.code));
    }
    let (now, then) = (call.runs(after), each.runs(before));
    let pair = now.iter().zip(&then).find(|(now, then)| {
        // 8 of the joined call is the translation's.
        now.answer.outcome != SHORT_OUTPUT && parts(now) != parts(then)
    });
    let (now, then) = pair?;
    Some(format!("gave {:?}, now {:?}", then.answer, now.answer))
}

/// What neither the labelling nor the order of the nodes changes: outcome, value,
/// steps, cells.
pub fn parts(run: &OneRun) -> (u16, i32, u32, u16) {
    let answer = &run.answer;
    (answer.outcome, answer.value, answer.steps, answer.cells)
}
