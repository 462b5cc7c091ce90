//! The cells of a run: contexts, and what they remember (document 02, request
//! 7).

pub const CELL_BYTES: usize = 68;

/// "eight entries by position of 8 bytes".
pub const ENTRIES: usize = 8;
pub const ENTRY_BYTES: usize = 8;

/// Where the entries start, after label and previous.
pub const FIRST_ENTRY: usize = 4;

/// "the last two bytes of a cell's eighth entry hold its callee".
pub const CALLEE: usize = CELL_BYTES - 2;

/// What a visit ends with when it is no stop and no fault.
#[derive(Clone, Copy, Debug)]
pub enum Value {
    Number(i32),
    Tuple { node: u16, context: u16 },
}

/// A context is a number of a cell; 0 is the empty context.
#[derive(Clone, Copy, Debug)]
pub struct Cell {
    pub label: u16,
    pub previous: u16,
    /// The function whose call made it.
    pub callee: u16,
    pub entries: [Option<Value>; ENTRIES],
}

impl Cell {
    /// "New cells have empty entries".
    pub fn new(label: u16, previous: u16, callee: u16) -> Cell {
        Cell {
            label,
            previous,
            callee,
            entries: [None; ENTRIES],
        }
    }

    pub fn remembered(&self, position: u16) -> Option<Value> {
        self.entries.get(position as usize).copied().flatten()
    }

    pub fn remember(&mut self, position: u16, value: Value) {
        if let Some(entry) = self.entries.get_mut(position as usize) {
            *entry = Some(value);
        }
    }

    pub fn bytes(&self) -> [u8; CELL_BYTES] {
        let mut bytes = [0; CELL_BYTES];
        bytes[..2].copy_from_slice(&self.label.to_le_bytes());
        bytes[2..FIRST_ENTRY].copy_from_slice(&self.previous.to_le_bytes());
        let entries = bytes[FIRST_ENTRY..].chunks_exact_mut(ENTRY_BYTES);
        for (entry, bytes) in self.entries.iter().zip(entries) {
            bytes.copy_from_slice(&entry_bytes(entry));
        }
        bytes[CALLEE..].copy_from_slice(&self.callee.to_le_bytes());
        bytes
    }
}

/// "kind (0 empty, 1 number, 2 constructor), then the number in 4 bytes and two
/// zero bytes, or node, context and two zero bytes".
fn entry_bytes(entry: &Option<Value>) -> [u8; ENTRY_BYTES] {
    let (kind, [a, b, c, d]) = match *entry {
        None => (0, [0; 4]),
        Some(Value::Number(number)) => (1, number.to_le_bytes()),
        Some(Value::Tuple { node, context }) => {
            let ([a, b], [c, d]) = (node.to_le_bytes(), context.to_le_bytes());
            (2, [a, b, c, d])
        }
    };
    [kind, 0, a, b, c, d, 0, 0]
}

/// Leaves cells in lent bytes.
pub fn write(cells: &[Cell], lent: &mut [u8]) {
    for (cell, bytes) in cells.iter().zip(lent.chunks_exact_mut(CELL_BYTES)) {
        bytes.copy_from_slice(&cell.bytes());
    }
}
