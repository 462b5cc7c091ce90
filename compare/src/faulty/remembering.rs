//! Faults in cells and in what they remember.

use super::fault::Fault;
use super::{giving, Faulty};
use crate::model::cells::{
    self, Cell, Value, CALLEE, CELL_BYTES, ENTRIES, ENTRY_BYTES, FIRST_ENTRY,
};
use crate::model::live_cells::{self, LiveCells, OpenCall};
use crate::model::records::two_bytes;
use crate::model::run::Run;
use crate::model::translation::{Node, Translation};
use crate::model::CellBehaviour;
use zifnora::numbers::is_stop;

// As in `Behaviour`, each method is the model's own step but for the faults
// that it names.
impl CellBehaviour for Faulty {
    fn new_cell(&self, run: &Run<Self>, cell: Cell) -> Cell {
        match self.0 {
            Fault::EntriesUsed => with_entries_before(run, cell),
            Fault::EntriesUsedAgain => giving::with_entries_given_back(&run.cells, cell),
            _ => cell,
        }
    }

    fn is_full(&self, cells: &LiveCells, allowed: u32) -> bool {
        match self.0 {
            Fault::MadeLimited => cells.made as u32 >= allowed,
            _ => live_cells::is_full(cells, allowed),
        }
    }

    fn count_opened(&self, cells: &mut LiveCells) {
        if self.0 != Fault::MostAfterGivingBack {
            cells.most = cells.most.max(cells.live);
        }
    }

    fn close_call(&self, cells: &mut LiveCells, end: &Result<Value, u16>) {
        live_cells::close_call(self, cells, end);
        if self.0 == Fault::MostAfterGivingBack {
            cells.most = cells.most.max(cells.live);
        }
    }

    fn gives_back(&self, end: &Result<Value, u16>, call: OpenCall) -> bool {
        giving::wrongly_gives_back(self.0, end, call)
            .unwrap_or_else(|| live_cells::gives_back(end, call))
    }

    fn give_back(&self, cells: &mut LiveCells, call: OpenCall) {
        live_cells::give_back(cells, call);
        match self.0 {
            Fault::OwnCellKept => cells.live += 1,
            Fault::GivenBackCleared => giving::clear(cells),
            _ => {}
        }
    }

    fn cell_count(&self, cells: &LiveCells, end: &Result<Value, u16>) -> usize {
        match self.0 {
            Fault::MadeCounted => cells.made,
            Fault::LiveAtEndCounted => cells.live,
            Fault::EndGivesBack if end.is_err() => cells.live,
            _ => cells.most,
        }
    }

    fn write_cells(&self, cells: &[Cell], lent: &mut [u8]) {
        let before = lent.to_vec();
        cells::write(cells, lent);
        let bytes = lent.chunks_exact_mut(CELL_BYTES);
        for ((cell, bytes), before) in cells.iter().zip(bytes).zip(before.chunks(CELL_BYTES)) {
            rewrite(self.0, cell, bytes, before);
        }
    }

    fn place_of(&self, translation: &Translation, formal: u16) -> (u16, u16) {
        let (function, position) = translation.place_of(formal);
        match self.0 {
            Fault::PositionInFile => (function, formal % ENTRIES as u16),
            _ => (function, position),
        }
    }

    fn uses(&self, callee: u16, function: u16) -> bool {
        match self.0 {
            Fault::ForeignUsed => true,
            Fault::NothingRemembered => false,
            _ => callee == function,
        }
    }

    fn recall(&self, run: &mut Run<Self>, cell: u16, value: Value) -> Value {
        match self.0 {
            Fault::RememberedUncounted => run.steps -= 1,
            Fault::RecallKeeps => live_cells::note_remembered(&mut run.cells, cell, value),
            _ => {}
        }
        match (self.0, value) {
            (Fault::ContextForNode, Value::Tuple { context, .. }) if is_tuple(run, context) => {
                Value::Tuple {
                    node: context,
                    context,
                }
            }
            _ => value,
        }
    }

    fn worth_remembering(&self, end: Result<Value, u16>) -> Option<Value> {
        match (self.0, end) {
            (Fault::FaultRemembered, Err(number)) if !is_stop(number) => Some(Value::Number(0)),
            (Fault::StopRemembered, Err(number)) if is_stop(number) => Some(Value::Number(0)),
            (Fault::ConstructorForgotten, Ok(Value::Tuple { .. })) => None,
            _ => end.ok(),
        }
    }

    fn remembers(&self, callee: u16, function: u16) -> bool {
        match self.0 {
            Fault::ForeignRemembered => true,
            Fault::NothingRemembered => false,
            _ => callee == function,
        }
    }

    fn remember(&self, cell: &mut Cell, position: u16, value: Value) {
        let next = (position + 1) % ENTRIES as u16;
        match self.0 {
            Fault::NextPosition => cell.remember(next, value),
            Fault::CalleeOverwritten if next == 0 => {
                cell.remember(position, value);
                cell.callee = 0;
            }
            _ => cell.remember(position, value),
        }
    }

    fn note_remembered(&self, cells: &mut LiveCells, cell: u16, value: Value) {
        if !giving::wrongly_noted(self.0, cells, cell, value) {
            live_cells::note_remembered(cells, cell, value);
        }
    }
}

fn is_tuple(run: &Run<Faulty>, node: u16) -> bool {
    matches!(
        run.translation.nodes.get(node as usize),
        Some(Node::Tuple { .. })
    )
}

/// A new cell with the entries that its bytes had before.
fn with_entries_before(run: &Run<Faulty>, cell: Cell) -> Cell {
    let mut cell = cell;
    let at = CELL_BYTES * run.cells.live;
    let Some(before) = run.lent.get(at..at + CELL_BYTES) else {
        return cell;
    };
    let entries = before[FIRST_ENTRY..].chunks_exact(ENTRY_BYTES);
    for (entry, bytes) in cell.entries.iter_mut().zip(entries) {
        let [kind, low, high] = [0, 2, 4].map(|at| two_bytes(bytes, at));
        *entry = match kind {
            1 => Some(Value::Number((low as u32 | (high as u32) << 16) as i32)),
            2 if is_tuple(run, low) && (high as usize) <= run.cells.written.len() => {
                Some(Value::Tuple {
                    node: low,
                    context: high,
                })
            }
            _ => None,
        };
    }
    cell
}

/// Changes the bytes of a cell as a fault leaves them.
fn rewrite(fault: Fault, cell: &Cell, bytes: &mut [u8], before: &[u8]) {
    let entries = bytes[FIRST_ENTRY..].chunks_exact_mut(ENTRY_BYTES);
    let before = before[FIRST_ENTRY..].chunks_exact(ENTRY_BYTES);
    for ((entry, bytes), before) in cell.entries.iter().zip(entries).zip(before) {
        match (fault, entry) {
            (Fault::EntriesLeft, None) => bytes[..6].copy_from_slice(&before[..6]),
            (Fault::EntryExchanged, Some(Value::Tuple { .. })) => bytes[2..6].rotate_left(2),
            _ => {}
        }
    }
    match (fault, cell.remembered(ENTRIES as u16 - 1)) {
        (Fault::CalleeMissing, _) | (Fault::CalleeCleared, Some(_)) => bytes[CALLEE..].fill(0),
        _ => {}
    }
}

/// No parameters written for any function.
pub fn without_parameters(mut translation: Translation) -> Translation {
    translation.parameters.fill(0);
    translation
}
