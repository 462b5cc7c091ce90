//! Chooses the batches with which a translation is examined.

use crate::call::{Call, RunInput};
use crate::check::Difference;
use crate::examine::Examiner;
use crate::generate::random::Random;
use crate::generate::sizes;
use crate::interface::Allowances;
use crate::model::answer::RECORD;
use zifnora::sizes::{CELL_BYTES, MOST_NESTING, MOST_ROWS};

impl Examiner<'_> {
    /// A batch in which anything may be wrong, and one in which nothing is
    /// but the file.
    pub(crate) fn batches(
        &mut self,
        random: &mut Random,
        file: &[u8],
        of: Option<&[u8]>,
        due: usize,
    ) -> Result<(), Difference> {
        let call = |(rows, input)| Call::Rows {
            of: of.map(<[u8]>::to_vec),
            file: file.to_vec(),
            rows,
            input,
        };
        self.check(&call(any_batch(random, due)))?;
        self.check(&call(right_batch(random, due)))?;
        Ok(())
    }
}

fn any_batch(random: &mut Random, due: usize) -> (u32, RunInput) {
    let rows = sizes::rows(random);
    let allowances = sizes::allowances(random);
    let readings = sizes::row_readings(random, rows, due);
    let cells = sizes::lent(random, allowances.cells);
    // No batch of more rows comes to the room for its records.
    let room = sizes::room(random, RECORD * rows.min(MOST_ROWS + 1) as usize);
    let input = RunInput {
        readings,
        allowances,
        cells: random.bytes(cells),
        record: random.bytes(room),
    };
    (rows, input)
}

/// A batch that is not refused where its file is accepted.
fn right_batch(random: &mut Random, due: usize) -> (u32, RunInput) {
    let rows = match random.below(10) {
        0 => MOST_ROWS as usize,
        1 | 2 => random.between(1, MOST_ROWS as usize),
        _ => random.between(2, 4),
    };
    let allowances = Allowances {
        steps: random.pick(&[30, 100, 300, 1000]),
        nesting: random.pick(&[20, 100, MOST_NESTING]),
        cells: random.pick(&[1, 10, 100]),
    };
    let spare = random.below(9);
    let input = RunInput {
        readings: (0..rows * due).map(|_| random.number()).collect(),
        allowances,
        cells: random.bytes(CELL_BYTES * allowances.cells as usize + spare),
        record: random.bytes(RECORD * rows + spare),
    };
    (rows as u32, input)
}
