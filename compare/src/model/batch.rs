//! Several rows of readings in one call (document 02, request 1).

use super::answer::{Answer, RECORD};
use super::behaviour::BatchBehaviour;
use super::translation::{self, Translation};
use super::Refusal;
use crate::interface::Allowances;
use zifnora::numbers::{BAD_ALLOWANCE, BAD_READINGS, SHORT_OUTPUT};

/// "0 to 16 reading rows".
const ROWS: u32 = 16;

/// The rows of a batch: how many, the readings of all one after the other,
/// and the allowances of each.
#[derive(Clone, Copy)]
pub struct Rows<'a> {
    pub count: u32,
    pub readings: &'a [i32],
    pub allowances: Allowances,
}

/// Runs a translation on each row in turn in the same lent cells and writes a
/// record for each; the length of the records.
pub fn run_rows<B: BatchBehaviour>(
    behaviour: &B,
    file: &[u8],
    rows: Rows,
    lent: &mut [u8],
    records: &mut [u8],
) -> Result<usize, Refusal> {
    let translation = translation::read(behaviour, file)?;
    let due = behaviour.readings_due(rows.count, translation.readings);
    let bad =
        behaviour.too_many(rows.count) || behaviour.bad_allowance(rows.allowances, lent.len());
    let length = RECORD as u64 * rows.count as u64;
    let refused = behaviour.first_refused([
        (BAD_READINGS, rows.readings.len() as u64 != due),
        (BAD_ALLOWANCE, bad),
        (SHORT_OUTPUT, (records.len() as u64) < length),
    ]);
    if let Some(number) = refused {
        return Err(Refusal::new(number, 0));
    }
    let mut answers = Vec::new();
    for _ in 0..rows.count {
        answers.push(behaviour.run_row(&translation, rows, &answers, lent));
    }
    behaviour.write_records(&answers, records);
    Ok(RECORD * answers.len())
}

/// "rows times I".
pub fn readings_due(rows: u32, each: u16) -> u64 {
    rows as u64 * each as u64
}

pub fn too_many(rows: u32) -> bool {
    rows > ROWS
}

/// "in the order 9, 10, 8": the first of them that holds.
pub fn first_refused(numbers: [(u16, bool); 3]) -> Option<u16> {
    let refused = numbers.into_iter().find(|number| number.1);
    refused.map(|number| number.0)
}

/// The single run of a row, with the cells as the run before left them.
pub fn run_row<B: BatchBehaviour>(
    behaviour: &B,
    translation: &Translation,
    rows: Rows,
    row: usize,
    lent: &mut [u8],
) -> Answer {
    let each = translation.readings as usize;
    let readings = &rows.readings[row * each..][..each];
    behaviour.run_accepted(translation, readings, rows.allowances, lent)
}

/// Writes the records one after the other.
pub fn write_records(answers: &[Answer], records: &mut [u8]) {
    for (answer, record) in answers.iter().zip(records.chunks_exact_mut(RECORD)) {
        record.copy_from_slice(&answer.record());
    }
}
