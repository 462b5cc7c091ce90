//! The cells of a run: which are alive, and what gives them back (document 02,
//! request 9).

use super::cells::{Cell, Value};
use super::CellBehaviour;

/// The cells of a run. Those with the numbers 1 to `live` are alive.
#[derive(Default)]
pub struct LiveCells {
    /// Every cell that was alive once, as it was left.
    pub written: Vec<Cell>,
    pub live: usize,
    /// "the most alive together".
    pub most: usize,
    /// How many were made, given back or not.
    pub made: usize,
    /// The calls whose visits are open, the newest last.
    pub calls: Vec<OpenCall>,
}

/// A call whose visit is open.
#[derive(Clone, Copy, Debug)]
pub struct OpenCall {
    /// The number of its own cell.
    pub cell: u16,
    /// Whether during its visit a constructor was remembered in an older cell.
    pub keeps: bool,
}

impl LiveCells {
    /// A cell more for a call, which is open from now on: cells are "used
    /// again, lowest number first". Its number.
    pub fn open(&mut self, cell: Cell) -> u16 {
        match self.written.get_mut(self.live) {
            Some(given_back) => *given_back = cell,
            None => self.written.push(cell),
        }
        self.live += 1;
        self.made += 1;
        let number = self.live as u16;
        self.calls.push(OpenCall {
            cell: number,
            keeps: false,
        });
        number
    }

    /// The open calls than which a cell is older keep their cells.
    pub fn keep_newer_than(&mut self, cell: u16) {
        for call in &mut self.calls {
            call.keeps |= cell < call.cell;
        }
    }
}

/// "The cell allowance now limits live cells".
pub fn is_full(cells: &LiveCells, allowed: u32) -> bool {
    cells.live as u32 >= allowed
}

/// A value was remembered in a cell.
pub fn note_remembered(cells: &mut LiveCells, cell: u16, value: Value) {
    if let Value::Tuple { .. } = value {
        cells.keep_newer_than(cell);
    }
}

/// The visit of the newest open call ended so.
pub fn close_call<B: CellBehaviour>(
    behaviour: &B,
    cells: &mut LiveCells,
    end: &Result<Value, u16>,
) {
    let call = cells.calls.pop().expect("a call is open");
    if behaviour.gives_back(end, call) {
        behaviour.give_back(cells, call);
    }
}

/// "When the visit of a call ends with a number .., unless during that visit a
/// constructor was remembered in a cell older than the call".
pub fn gives_back(end: &Result<Value, u16>, call: OpenCall) -> bool {
    matches!(end, Ok(Value::Number(_))) && !call.keeps
}

/// "the cells made since that call, its own included, are given back"; "Giving
/// back writes no byte".
pub fn give_back(cells: &mut LiveCells, call: OpenCall) {
    cells.live = call.cell as usize - 1;
}
