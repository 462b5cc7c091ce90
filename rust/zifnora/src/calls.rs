//! The calls with typed results.

use crate::allowed::Allowed;
use crate::answer::{Allowances, Answer, Ended, Record, Refusal};
use crate::kinds::view;
use crate::raw;
use crate::search::Search;
use crate::sizes::{ANSWER_BYTES, CELL_BYTES, LABEL_BYTES, MOST_ROWS, VIEW_BYTES};

/// Translates a sheet; the translation's length. `out` starts with the
/// translation and stays as it was past it; a refusal leaves all of it as it
/// was. A buffer of `sizes::TRANSLATION_BYTES` is always long enough.
pub fn translate(sheet: &[u8], out: &mut [u8]) -> Result<usize, Refusal> {
    raw::result(raw::translate(sheet, out))
}

/// What `translate` would answer for a buffer of `room` bytes, with none lent:
/// the translation's length, or the refusal. Nothing is written.
pub fn translated_length(sheet: &[u8], room: u64) -> Result<usize, Refusal> {
    raw::result(raw::translated_length(sheet, room))
}

/// Writes a sheet, typed or not, in canonical form; its length, which is that of
/// the sheet. The nodes of each function come in post-order, the children of a
/// node in the order of its fields, and are numbered so; all else is as it was. So
/// two sheets come out as equal bytes exactly if their heads, constructors and
/// functions are equal and their bodies are equal trees, and what comes out runs
/// like the sheet. `out` stays as it was past it; a refusal leaves all of it as it
/// was. A buffer of `sizes::SHEET_BYTES` is always long enough.
pub fn canonical_sheet(sheet: &[u8], out: &mut [u8]) -> Result<usize, Refusal> {
    raw::result(raw::canonical_sheet(sheet, out))
}

/// Runs a translation on readings, in lent cells of `sizes::CELL_BYTES` each,
/// which remember the values of parameters and are given back after calls that
/// end with a number. `cells` starts with as many cells as were alive together
/// at most, given back or not, and stays as it was past them; what it held
/// before does not count, and a refusal leaves all of it as it was.
pub fn run(
    translation: &[u8],
    readings: &[i32],
    allowances: Allowances,
    cells: &mut [u8],
) -> Ended {
    let mut record = [0; ANSWER_BYTES];
    let code = raw::run(translation, readings, allowances, cells, &mut record);
    ended(code, &record)
}

/// Runs a translation for a hirer, who may use the allowed readings and no
/// others. It is refused with `numbers::CLOSED_READING` where any node of the
/// translation is another reading, reached or not; else it is `run`. Two lists
/// of readings that agree on the allowed ones end alike, cells included.
pub fn run_for_hirer(
    translation: &[u8],
    allowed: Allowed,
    readings: &[i32],
    allowances: Allowances,
    cells: &mut [u8],
) -> Ended {
    let mut record = [0; ANSWER_BYTES];
    let set = allowed.bits();
    let code = raw::run_for_hirer(translation, set, readings, allowances, cells, &mut record);
    ended(code, &record)
}

/// Runs a translation on each of `rows` rows of readings, which stand one after
/// the other; how each row's run ended. The rows run in turn in the same lent
/// cells, each with all of the allowances, and `cells` is left as these runs
/// leave it; a refusal runs no row and leaves all of it as it was.
pub fn run_rows(
    translation: &[u8],
    rows: u32,
    readings: &[i32],
    allowances: Allowances,
    cells: &mut [u8],
) -> Result<Vec<Ended>, Refusal> {
    let mut records = [0; MOST_ROWS as usize * ANSWER_BYTES];
    let code = raw::run_rows(translation, rows, readings, allowances, cells, &mut records);
    let written = &records[..raw::result(code)?];
    Ok(written.chunks_exact(ANSWER_BYTES).map(decoded).collect())
}

/// The smallest of the values for one reading with which the run of a
/// translation, at these allowances, ends in the wanted number; none where no
/// value in the range does it. A run that stops, faults or ends with a
/// constructor does not count. The values are tried from the lowest on in the same
/// lent cells, each with all of the allowances, and `cells` is left as these runs
/// leave it, that of the value found the last; a refusal runs nothing and leaves
/// all of it as it was. `numbers::BAD_RANGE` where the lowest value is above the
/// highest, the values are more than `sizes::MOST_VALUES`, or there is no reading
/// at the position.
pub fn find_reading(
    translation: &[u8],
    readings: &[i32],
    search: Search,
    allowances: Allowances,
    cells: &mut [u8],
) -> Result<Option<i32>, Refusal> {
    raw::found(raw::find_reading(
        translation,
        readings,
        search,
        allowances,
        cells,
    ))
}

/// Translates a sheet into `out` and runs the translation. Any refusal leaves
/// `out` and `cells` as they were.
pub fn translate_and_run(
    sheet: &[u8],
    out: &mut [u8],
    readings: &[i32],
    allowances: Allowances,
    cells: &mut [u8],
) -> Ended {
    let mut record = [0; ANSWER_BYTES];
    let code = raw::translate_and_run(sheet, out, readings, allowances, cells, &mut record);
    ended(code, &record)
}

/// The labels of a cell's context, newest first; cell 0 has none.
pub fn list_context(cells: &[u8], cell: u32) -> Result<Vec<u16>, Refusal> {
    // A context has no more labels than there are cells.
    let mut out = vec![0; cells.len() / CELL_BYTES * LABEL_BYTES];
    let count = list_context_into(cells, cell, &mut out)?;
    let labels = out.chunks_exact(LABEL_BYTES).take(count);
    Ok(labels
        .map(|label| u16::from_le_bytes([label[0], label[1]]))
        .collect())
}

/// The same labels into lent bytes, two each; their count. `out` stays as it
/// was past them; a refusal leaves all of it as it was.
pub fn list_context_into(cells: &[u8], cell: u32, out: &mut [u8]) -> Result<usize, Refusal> {
    raw::result(raw::list_context(cells, cell, out))
}

/// What the cab shows of the bytes of an answer record: the number, or nothing
/// for every other outcome. `numbers::BAD_RECORD` where they are not
/// `sizes::ANSWER_BYTES`, or their length or kind is not that of an answer.
pub fn driver_view(record: &[u8]) -> Result<Option<i32>, Refusal> {
    let mut out = [0; VIEW_BYTES];
    raw::result(raw::driver_view(record, &mut out))?;
    let [low, high, number @ ..] = out;
    let shown = u16::from_le_bytes([low, high]) == view::NUMBER;
    Ok(shown.then_some(i32::from_le_bytes(number)))
}

/// The end of a run, by its code and its record.
fn ended(code: u64, record: &[u8]) -> Ended {
    match raw::result(code) {
        Ok(_) => decoded(record),
        Err(refusal) => Ended {
            answer: Answer::Refused(refusal),
            steps: 0,
            cells: 0,
        },
    }
}

/// What an answer record says.
fn decoded(record: &[u8]) -> Ended {
    let record = Record::from_bytes(record).expect("an answer record");
    record.ended().expect("an outcome of the table")
}
