//! The run without remembering, as document 01 has it: what is needed twice is
//! worked out twice, and no cell is given back.

use super::answer::Answer;
use super::cells::Value;
use super::live_cells::OpenCall;
use super::translation::Translation;
use super::{run, Behaviour, CellBehaviour, TypeBehaviour};
use crate::interface::Allowances;

struct Forgetful;

impl Behaviour for Forgetful {}

impl TypeBehaviour for Forgetful {}

impl CellBehaviour for Forgetful {
    fn uses(&self, _callee: u16, _function: u16) -> bool {
        false
    }

    fn remembers(&self, _callee: u16, _function: u16) -> bool {
        false
    }

    fn gives_back(&self, _end: &Result<Value, u16>, _call: OpenCall) -> bool {
        false
    }
}

/// Runs an accepted translation on as many readings as it asks for. The
/// allowances have no ceilings but the numbers that cells can have.
pub fn run(translation: &Translation, readings: &[i32], allowances: Allowances) -> Answer {
    run::run_accepted(&Forgetful, translation, readings, allowances, &mut [])
}
