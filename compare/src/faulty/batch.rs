//! Faults in a batch.

use super::fault::Fault;
use super::Faulty;
use crate::model::answer::{Answer, RECORD};
use crate::model::batch::{self, Rows};
use crate::model::translation::{self, Translation};
use crate::model::{BatchBehaviour, Refusal};
use zifnora::numbers::{is_value, SHORT_OUTPUT};
use zifnora::sizes::{CELL_BYTES, MOST_ROWS};

// As in `Behaviour`, each method is the model's own step but for the faults
// that it names.
impl BatchBehaviour for Faulty {
    fn run_rows(
        &self,
        file: &[u8],
        rows: Rows,
        lent: &mut [u8],
        records: &mut [u8],
    ) -> Result<usize, Refusal> {
        let result = batch::run_rows(self, file, rows, lent, records);
        match (self.0, result) {
            (Fault::BatchEmptyUnchecked, _) if rows.count == 0 => return Ok(0),
            (Fault::BatchRoomBeforeFile, Err(refusal)) => {
                return Err(room_first(rows, refusal, records.len()));
            }
            (Fault::BatchRunBeforeRoom, Err(refusal)) => run_first(self, file, rows, refusal, lent),
            (Fault::BatchPastRecords, Ok(length)) => records[length..].fill(0),
            _ => {}
        }
        result
    }

    fn readings_due(&self, rows: u32, each: u16) -> u64 {
        match self.0 {
            Fault::BatchCountedTo16 => batch::readings_due(rows.min(MOST_ROWS), each),
            Fault::BatchProductWrapped => rows.wrapping_mul(each as u32) as u64,
            _ => batch::readings_due(rows, each),
        }
    }

    fn too_many(&self, rows: u32) -> bool {
        match self.0 {
            Fault::BatchRowLimit => rows > MOST_ROWS + 1,
            _ => batch::too_many(rows),
        }
    }

    fn first_refused(&self, numbers: [(u16, bool); 3]) -> Option<u16> {
        let [readings, allowance, room] = numbers;
        batch::first_refused(match self.0 {
            Fault::BatchAllowanceFirst => [allowance, readings, room],
            Fault::BatchRoomFirst => [room, readings, allowance],
            Fault::BatchRoomSecond => [readings, room, allowance],
            _ => numbers,
        })
    }

    fn run_row(
        &self,
        translation: &Translation,
        rows: Rows,
        before: &[Answer],
        lent: &mut [u8],
    ) -> Answer {
        let (mut rows, mut row) = (rows, before.len());
        if let Some(last) = before.last() {
            let taken: u32 = before.iter().map(|answer| answer.steps).sum();
            match self.0 {
                Fault::BatchRowReadings => row -= 1,
                Fault::BatchCellsCleared => lent[..CELL_BYTES * last.cells as usize].fill(0),
                Fault::BatchStepsShared => rows.allowances.steps -= taken,
                Fault::BatchEndsEarly if !is_value(last.outcome) => return *last,
                _ => {}
            }
        }
        batch::run_row(self, translation, rows, row, lent)
    }

    fn write_records(&self, answers: &[Answer], records: &mut [u8]) {
        batch::write_records(answers, records);
        if self.0 == Fault::BatchRecordPlace && answers.len() > 1 {
            records[..2 * RECORD].rotate_left(RECORD);
        }
    }
}

/// 8 in place of a refusal of the file where both hold.
fn room_first(rows: Rows, refusal: Refusal, room: usize) -> Refusal {
    let short = room < RECORD * rows.count as usize;
    match short && refusal.number < SHORT_OUTPUT {
        true => Refusal::new(SHORT_OUTPUT, 0),
        false => refusal,
    }
}

/// Runs the first row of a batch whose records do not fit.
fn run_first(faulty: &Faulty, file: &[u8], rows: Rows, refusal: Refusal, lent: &mut [u8]) {
    if refusal.number == SHORT_OUTPUT {
        let translation = translation::read(faulty, file).expect("8 is after its refusals");
        batch::run_row(faulty, &translation, rows, 0, lent);
    }
}
