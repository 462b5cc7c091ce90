//! What a number, constructor or run fault of a translated sheet's run has to
//! be beside the other side's: the sheet's own answer, by call by name; and the
//! answer without remembering, in no more steps than that takes (document 02,
//! requests 7 and 8).

use crate::call::{After, Call, OneRun};
use crate::interface::Allowances;
use crate::model::answer::Answer;
use crate::model::name::{self, Own};
use crate::model::sheet::Sheet;
use crate::model::translate::{translate, Labelling};
use crate::model::translation::{self, Translation};
use crate::model::{plain, Behaviour, Correct};

/// What is worked out again may take very much longer, so not all of it is
/// worked out to its end.
const ENOUGH: Allowances = Allowances {
    steps: 100_000,
    nesting: 10_000,
    cells: 65_535,
};

/// The runs of a translated sheet that have to be its own answer.
fn own_runs<'a>(call: &'a Call, after: &After) -> Vec<OneRun<'a>> {
    let mut runs = call.runs(after);
    runs.retain(|run| run.answer.is_own());
    runs
}

/// How many runs have the answers of call by name, or what differs.
pub fn by_name(call: &Call, after: &After) -> Result<u64, String> {
    let Some(sheet) = call.sheet() else {
        return Ok(0);
    };
    let runs = own_runs(call, after);
    if runs.is_empty() {
        return Ok(0);
    }
    let read = Correct.read_sheet(sheet);
    let read = read.map_err(|refusal| format!("run of a sheet that is refused: {refusal:?}"))?;
    let mut known = 0;
    for run in &runs {
        known += run_by_name(&read, run)? as u64;
    }
    Ok(known)
}

/// The answer of call by name, within its budget.
pub fn own(sheet: &Sheet, readings: &[i32]) -> Own {
    name::answer(sheet, readings, ENOUGH.steps as u64, ENOUGH.nesting)
}

/// Whether call by name has an answer within its budget, which is then the
/// run's.
fn run_by_name(sheet: &Sheet, run: &OneRun) -> Result<bool, String> {
    let answer = &run.answer;
    let own = own(sheet, run.readings);
    match own.outcome() {
        Some(outcome) if outcome != (answer.outcome, answer.value) => {
            Err(format!("call by name gives {own:?}, the run {answer:?}"))
        }
        other => Ok(other.is_some()),
    }
}

/// How many runs have the answers of the rule without remembering, in no more
/// steps, or what differs.
pub fn by_plain_rule(call: &Call, after: &After) -> Result<u64, String> {
    let runs = own_runs(call, after);
    let compared = call.sheet().is_some() && !runs.is_empty();
    let Some(file) = compared.then(|| translation_of(call)).flatten() else {
        return Ok(0);
    };
    let mut ended = 0;
    for run in &runs {
        ended += run_by_plain_rule(&file, run)? as u64;
    }
    Ok(ended)
}

/// The translation that a call runs.
pub fn translation_of(call: &Call) -> Option<Translation> {
    match call {
        Call::Run { file, .. } | Call::Rows { file, .. } | Call::Hirer { file, .. } => {
            translation::read(&Correct, file).ok()
        }
        Call::Joined { sheet, .. } => {
            let sheet = Correct.read_sheet(sheet).ok()?;
            Some(translate(&Correct, &sheet, Labelling::EqualCalls))
        }
        Call::Translate { .. } | Call::Length { .. } | Call::Search { .. } => None,
        Call::Canonical { .. } | Call::List { .. } | Call::View { .. } => None,
    }
}

/// Whether the rule without remembering ends within its allowances, which is
/// then the run's end.
fn run_by_plain_rule(file: &Translation, run: &OneRun) -> Result<bool, String> {
    let parts = |answer: &Answer| (answer.outcome, answer.value, answer.node);
    let (answer, plain) = (&run.answer, plain::run(file, run.readings, ENOUGH));
    if !plain.is_own() {
        return Ok(false);
    }
    if parts(answer) != parts(&plain) || answer.steps > plain.steps {
        return Err(format!("without remembering {plain:?}, the run {answer:?}"));
    }
    Ok(true)
}
