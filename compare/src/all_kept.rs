//! A run beside the same run with all cells kept (document 02, request 9):
//! where that does not stop with 13, the run ends in the same way, with no more
//! cells; so it never stops with 13 where that answered.

use crate::call::{After, Call, OneRun};
use crate::model::answer::Answer;
use crate::model::kept;
use crate::own_answer::translation_of;
use zifnora::numbers::{is_refusal, NO_CELL};

/// How many runs were compared with those that keep all cells.
#[derive(Clone, Copy, Debug, Default)]
pub struct Compared {
    pub runs: u64,
    /// Those of them with fewer cells.
    pub fewer: u64,
    /// Those that stop with 13 only where all cells are kept.
    pub further: u64,
}

impl Compared {
    pub fn add(&mut self, more: Compared) {
        self.runs += more.runs;
        self.fewer += more.fewer;
        self.further += more.further;
    }
}

/// The runs that were compared, or what differs.
pub fn by_kept_rule(call: &Call, after: &After) -> Result<Compared, String> {
    let mut runs = call.runs(after);
    runs.retain(|run| !is_refusal(run.answer.outcome));
    let mut compared = Compared::default();
    if runs.is_empty() {
        return Ok(compared);
    }
    let Some(file) = translation_of(call) else {
        return Err("run of a file that is refused".to_string());
    };
    for run in &runs {
        let kept = kept::run(&file, run.readings, run.allowances);
        if !fits(run, &kept) {
            let answer = &run.answer;
            return Err(format!("all cells kept {kept:?}, the run {answer:?}"));
        }
        let stopped = [kept, run.answer].map(|answer| answer.outcome == NO_CELL);
        compared.runs += 1;
        compared.fewer += (run.answer.cells < kept.cells) as u64;
        compared.further += (stopped == [true, false]) as u64;
    }
    Ok(compared)
}

/// Whether a run goes with that which keeps all cells: as far at least where
/// that stops with 13, and else to the same end.
fn fits(run: &OneRun, kept: &Answer) -> bool {
    let answer = &run.answer;
    let parts = |answer: &Answer| (answer.outcome, answer.value, answer.steps, answer.node);
    let same = match kept.outcome {
        NO_CELL => answer.steps >= kept.steps,
        _ => parts(answer) == parts(kept),
    };
    same && answer.cells <= kept.cells
}
