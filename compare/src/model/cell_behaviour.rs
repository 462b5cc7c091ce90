//! The steps around cells that can be exchanged, in the manner of `Behaviour`.

use super::cells::{self, Cell, Value};
use super::live_cells::{self, LiveCells, OpenCall};
use super::run::Run;
use super::translation::Translation;

pub trait CellBehaviour: Sized {
    /// Whether no cell is left for a call.
    fn is_full(&self, cells: &LiveCells, allowed: u32) -> bool {
        live_cells::is_full(cells, allowed)
    }

    /// A call adds a cell.
    fn new_cell(&self, _run: &Run<Self>, cell: Cell) -> Cell {
        cell
    }

    /// Counts the cells alive once a call's own cell is among them.
    fn count_opened(&self, cells: &mut LiveCells) {
        cells.most = cells.most.max(cells.live);
    }

    fn close_call(&self, cells: &mut LiveCells, end: &Result<Value, u16>) {
        live_cells::close_call(self, cells, end)
    }

    /// Whether a call whose visit ended so gives cells back.
    fn gives_back(&self, end: &Result<Value, u16>, call: OpenCall) -> bool {
        live_cells::gives_back(end, call)
    }

    fn give_back(&self, cells: &mut LiveCells, call: OpenCall) {
        live_cells::give_back(cells, call)
    }

    /// The record's cell count, of a run that ended so.
    fn cell_count(&self, cells: &LiveCells, _end: &Result<Value, u16>) -> usize {
        cells.most
    }

    fn write_cells(&self, cells: &[Cell], lent: &mut [u8]) {
        cells::write(cells, lent)
    }

    /// Function and position of a formal.
    fn place_of(&self, translation: &Translation, formal: u16) -> (u16, u16) {
        translation.place_of(formal)
    }

    /// Whether a formal of a function uses what a cell of a callee remembers.
    fn uses(&self, callee: u16, function: u16) -> bool {
        callee == function
    }

    /// The step of a formal is counted, remembered in the cell or not.
    fn recall(&self, _run: &mut Run<Self>, _cell: u16, value: Value) -> Value {
        value
    }

    /// A value, and never a stop or a fault.
    fn worth_remembering(&self, end: Result<Value, u16>) -> Option<Value> {
        end.ok()
    }

    /// "A formal visited under a cell that another function's call made
    /// remembers nothing".
    fn remembers(&self, callee: u16, function: u16) -> bool {
        callee == function
    }

    fn remember(&self, cell: &mut Cell, position: u16, value: Value) {
        cell.remember(position, value)
    }

    /// What a value remembered in a cell means for the open calls.
    fn note_remembered(&self, cells: &mut LiveCells, cell: u16, value: Value) {
        live_cells::note_remembered(cells, cell, value)
    }
}
