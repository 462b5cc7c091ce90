//! The run that gives no cell back, as request 7 of document 02 has it.

use super::answer::Answer;
use super::cells::Value;
use super::live_cells::OpenCall;
use super::translation::Translation;
use super::{run, Behaviour, CellBehaviour, TypeBehaviour};
use crate::interface::Allowances;

struct Keeping;

impl Behaviour for Keeping {}

impl TypeBehaviour for Keeping {}

impl CellBehaviour for Keeping {
    fn gives_back(&self, _end: &Result<Value, u16>, _call: OpenCall) -> bool {
        false
    }
}

/// Runs an accepted translation on as many readings as it asks for. The
/// allowances have no ceilings but the numbers that cells can have.
pub fn run(translation: &Translation, readings: &[i32], allowances: Allowances) -> Answer {
    run::run_accepted(&Keeping, translation, readings, allowances, &mut [])
}
