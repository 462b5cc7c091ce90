//! The listing of a context.

use super::cells::CELL_BYTES;
use super::records::two_bytes;
use super::Refusal;
use zifnora::numbers::{OUT_OF_RANGE, SHORT_OUTPUT};

/// Labels from cell `cell` on, newest first, written into `out`; their count.
pub fn list(lent: &[u8], cell: u32, out: &mut [u8]) -> Result<u32, Refusal> {
    let cells = cells(lent);
    let mut labels = Vec::new();
    let mut number = cell;
    while number != 0 {
        if number as usize > cells.len() {
            return Err(Refusal::new(OUT_OF_RANGE, number));
        }
        let (label, previous) = cells[number as usize - 1];
        let previous = previous as u32;
        if previous >= number {
            return Err(Refusal::new(OUT_OF_RANGE, number));
        }
        labels.push(label);
        number = previous;
    }
    if out.len() < 2 * labels.len() {
        return Err(Refusal::new(SHORT_OUTPUT, 0));
    }
    for (label, bytes) in labels.iter().zip(out.chunks_exact_mut(2)) {
        bytes.copy_from_slice(&label.to_le_bytes());
    }
    Ok(labels.len() as u32)
}

/// The whole cells of lent bytes: label and number of the previous cell.
fn cells(lent: &[u8]) -> Vec<(u16, u16)> {
    lent.chunks_exact(CELL_BYTES)
        .map(|cell| (two_bytes(cell, 0), two_bytes(cell, 2)))
        .collect()
}
