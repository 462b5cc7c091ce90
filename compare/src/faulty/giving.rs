//! Faults in giving cells back.

use super::fault::Fault;
use crate::model::cells::{Cell, Value};
use crate::model::live_cells::{LiveCells, OpenCall};

/// Whether a call gives cells back, where a fault decides.
pub fn wrongly_gives_back(fault: Fault, end: &Result<Value, u16>, call: OpenCall) -> Option<bool> {
    match (fault, end) {
        (Fault::NothingGivenBack, _) => Some(false),
        (Fault::ConstructorGivesBack, Ok(Value::Tuple { .. })) => Some(!call.keeps),
        (Fault::EndGivesBack, Err(_)) => Some(true),
        _ => None,
    }
}

/// Notes a remembered value as a fault does; false where none does.
pub fn wrongly_noted(fault: Fault, cells: &mut LiveCells, cell: u16, value: Value) -> bool {
    match (fault, value) {
        (Fault::NumberKeeps, Value::Number(_)) => cells.keep_newer_than(cell),
        (Fault::OwnCellKeeps, Value::Tuple { .. }) => cells.keep_newer_than(cell - 1),
        (Fault::CellBelowForgotten, Value::Tuple { .. }) => cells.keep_newer_than(cell + 1),
        (Fault::InnerForgotten, Value::Tuple { .. }) => {
            if let Some(newest) = cells.calls.last_mut() {
                newest.keeps |= cell < newest.cell;
            }
        }
        (Fault::ConstructorNeverKeeps, _) => {}
        _ => return false,
    }
    true
}

/// A new cell with the entries of the cell that is used again for it.
pub fn with_entries_given_back(cells: &LiveCells, cell: Cell) -> Cell {
    let again = cells.written.get(cells.live);
    let entries = again.map_or(cell.entries, |again| again.entries);
    Cell { entries, ..cell }
}

/// Clears the cells that are not alive.
pub fn clear(cells: &mut LiveCells) {
    cells.written[cells.live..].fill(Cell::new(0, 0, 0));
}
