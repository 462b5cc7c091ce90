//! The owner's runs of a sheet beside those of its canonical form (document 02,
//! request 13): outcome, value, steps and number of cells are the same, stops and
//! refusals included.

use crate::call::{After, Call};
use crate::interface::{count, shown, Interface};
use crate::labelling::parts;
use zifnora::numbers::{is_fault, is_refusal, is_stop};
use zifnora::sizes::TRANSLATION_BYTES;

/// Runs that were compared with those of the canonical form.
#[derive(Clone, Copy, Debug, Default)]
pub struct CanonicalRuns {
    pub runs: u64,
    /// Those of them that ended with a stop, with a run fault, or were refused.
    pub stops: u64,
    pub faults: u64,
    pub refused: u64,
}

impl CanonicalRuns {
    pub fn add(&mut self, more: CanonicalRuns) {
        self.runs += more.runs;
        self.stops += more.stops;
        self.faults += more.faults;
        self.refused += more.refused;
    }

    fn count(&mut self, outcome: u16) {
        self.runs += 1;
        self.stops += is_stop(outcome) as u64;
        self.faults += is_fault(outcome) as u64;
        self.refused += is_refusal(outcome) as u64;
    }
}

/// The runs that were compared with those of the canonical form, or what differs.
pub fn by_canonical_form(
    call: &Call,
    after: &After,
    on: &dyn Interface,
) -> Result<CanonicalRuns, String> {
    let mut counted = CanonicalRuns::default();
    let Some(form) = canonical_form(call, on) else {
        return Ok(counted);
    };
    let again = with_form(call, form, on)?;
    let left = again.perform(on);
    if left.code != after.code {
        let [before, now] = [after, &left].map(|after| shown(after.code));
        return Err(format!("returned {before}, in canonical form {now}"));
    }
    for (run, now) in call.runs(after).iter().zip(again.runs(&left)) {
        if parts(run) != parts(&now) {
            let [before, now] = [run.answer, now.answer];
            return Err(format!("gave {before:?}, in canonical form {now:?}"));
        }
        counted.count(run.answer.outcome);
    }
    Ok(counted)
}

/// The canonical form of the sheet that a call runs, where it is accepted and has
/// other bytes.
fn canonical_form(call: &Call, on: &dyn Interface) -> Option<Vec<u8>> {
    let sheet = call.sheet()?;
    let form = written(sheet.len(), |out| on.canonical_sheet(sheet, out))?;
    (form != sheet).then_some(form)
}

/// What a call writes into an output of so many bytes.
fn written(room: usize, call: impl FnOnce(&mut [u8]) -> u64) -> Option<Vec<u8>> {
    let mut out = vec![0; room];
    let length = count(call(&mut out))?;
    out.truncate(length);
    Some(out)
}

/// The same call of the canonical form, or of its translation.
fn with_form(call: &Call, form: Vec<u8>, on: &dyn Interface) -> Result<Call, String> {
    let mut again = call.clone();
    match &mut again {
        Call::Run { file, .. } | Call::Rows { file, .. } => {
            let translation = written(TRANSLATION_BYTES, |out| on.translate(&form, out));
            *file = translation.ok_or("the canonical form is refused")?;
        }
        Call::Joined { sheet, .. } => *sheet = form,
        _ => {}
    }
    Ok(again)
}
