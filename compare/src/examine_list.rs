//! Chooses the context listings with which the cells that a run left are
//! examined.

use crate::call::{inner, After, Call};
use crate::check::Difference;
use crate::examine::Examiner;
use crate::generate::random::Random;
use crate::generate::sizes;
use crate::interface::count;
use crate::model::answer::Answer;
use zifnora::sizes::{CELL_BYTES, LABEL_BYTES};

impl Examiner<'_> {
    /// Listings from the cells that a run left, and from damaged ones.
    pub(crate) fn list(
        &mut self,
        random: &mut Random,
        cells: &[u8],
        after: &After,
    ) -> Result<(), Difference> {
        if random.below(4000) == 0 {
            self.list_many(random)?;
        }
        let answer = Answer::from_record(inner(&after.record)).unwrap_or_default();
        if answer.cells == 0 && !random.chance(5) {
            return Ok(());
        }
        let lent = some_cells(random, cells, CELL_BYTES * answer.cells as usize);
        let cell = match random.below(8) {
            0 => 0,
            1 => answer.context as u32,
            2 => answer.cells as u32,
            3 => answer.cells as u32 + 1,
            4 if random.chance(10) => random.bits() as u32,
            _ => random.below(lent.len() / CELL_BYTES + 2) as u32,
        };
        let mut scratch = vec![0; LABEL_BYTES * (lent.len() / CELL_BYTES)];
        let labels = count(self.reference.list_context(&lent, cell, &mut scratch));
        let room = sizes::room(random, LABEL_BYTES * labels.unwrap_or(3));
        let out = random.bytes(room);
        self.check(&Call::List {
            cells: lent,
            cell,
            out,
        })?;
        Ok(())
    }

    /// A chain of up to 65,536 labels in more cells than a number of two
    /// bytes can name.
    fn list_many(&mut self, random: &mut Random) -> Result<(), Difference> {
        let count = random.between(65_536, 65_600);
        let mut cells = random.bytes(CELL_BYTES * count);
        for (number, cell) in cells.chunks_exact_mut(CELL_BYTES).enumerate() {
            cell[2..4].copy_from_slice(&(number.min(65_535) as u16).to_le_bytes());
        }
        let cell = random.pick(&[65_535, 65_536, count, count + 1]) as u32;
        let labels = (cell as usize).min(65_536);
        let room = random.pick(&[2 * labels - 1, 2 * labels, 2 * labels + 5]);
        let out = random.bytes(room);
        self.check(&Call::List { cells, cell, out })?;
        Ok(())
    }
}

/// Some of the cells that a run left, now and then damaged; it wrote cells in
/// the first `written` bytes.
fn some_cells(random: &mut Random, cells: &[u8], written: usize) -> Vec<u8> {
    let beyond = match random.below(4) {
        0 => 0,
        1 => random.below(3 * CELL_BYTES + 1),
        2 => random.pick(&[0, 1, 2, 3, 4, CELL_BYTES - 1, CELL_BYTES]),
        _ => random.below(9),
    };
    let end = match random.below(5) {
        0 => random.below(written + beyond + 1),
        _ => written + beyond,
    };
    let mut lent = cells[..end.min(cells.len())].to_vec();
    let whole = lent.len() / CELL_BYTES;
    if random.chance(30) && whole > 0 {
        for _ in 0..random.between(1, 3) {
            // Mostly the number of the previous cell.
            let at = random.pick(&[0, 1, 2, 2, 2, 2, 3, 4, CELL_BYTES - 1]);
            lent[CELL_BYTES * random.below(whole) + at] = random.below(whole + 2) as u8;
        }
    }
    lent
}
