//! The calls as the archive has them, over slices. Each returns one number of
//! 64 bits, which `result` opens, or `found` for a search; the answer of a run is
//! the record that it writes. `include/zifnora.h` says what each call writes and what it leaves.

use crate::answer::{Allowances, Refusal};
use crate::declared::{
    zifnora_canonical_sheet, zifnora_driver_view, zifnora_find_reading_slice, zifnora_list_context,
    zifnora_run_for_hirer_slice, zifnora_run_rows_slice, zifnora_run_slice, zifnora_translate,
    zifnora_translate_and_run_slice, zifnora_translated_length, Lent,
};
use crate::numbers::{NO_VALUE, NUMBER};
use crate::search::Search;

// Safety of the ten calls: every pointer comes from a live slice of the
// stated length; slices that are written are borrowed mutably, so that they
// overlap no other; the pair of the cells is a local variable.

/// Translates a sheet into `out`.
#[inline]
pub fn translate(sheet: &[u8], out: &mut [u8]) -> u64 {
    unsafe { zifnora_translate(sheet.as_ptr(), sheet.len(), out.as_mut_ptr(), out.len()) }
}

/// What translating a sheet into a buffer of `room` bytes would return.
#[inline]
pub fn translated_length(sheet: &[u8], room: u64) -> u64 {
    unsafe { zifnora_translated_length(sheet.as_ptr(), sheet.len(), room) }
}

/// Writes a sheet in canonical form into `out`.
#[inline]
pub fn canonical_sheet(sheet: &[u8], out: &mut [u8]) -> u64 {
    unsafe { zifnora_canonical_sheet(sheet.as_ptr(), sheet.len(), out.as_mut_ptr(), out.len()) }
}

/// Runs a translation and writes the answer record.
#[inline]
pub fn run(
    translation: &[u8],
    readings: &[i32],
    allowances: Allowances,
    cells: &mut [u8],
    record: &mut [u8],
) -> u64 {
    let mut lent = Lent::of(cells);
    let code = unsafe {
        zifnora_run_slice(
            translation.as_ptr(),
            translation.len(),
            readings.as_ptr(),
            readings.len(),
            allowances.steps,
            allowances.nesting,
            allowances.cells,
            &mut lent,
            record.as_mut_ptr(),
            record.len(),
        )
    };
    assert!(lent == Lent::of(cells), "the pair is as it was");
    code
}

/// Runs a translation for a hirer, with bit i of `set` for reading i, and writes
/// the answer record.
#[inline]
pub fn run_for_hirer(
    translation: &[u8],
    set: u32,
    readings: &[i32],
    allowances: Allowances,
    cells: &mut [u8],
    record: &mut [u8],
) -> u64 {
    let mut lent = Lent::of(cells);
    let code = unsafe {
        zifnora_run_for_hirer_slice(
            translation.as_ptr(),
            translation.len(),
            set,
            readings.as_ptr(),
            readings.len(),
            allowances.steps,
            allowances.nesting,
            allowances.cells,
            &mut lent,
            record.as_mut_ptr(),
            record.len(),
        )
    };
    assert!(lent == Lent::of(cells), "the pair is as it was");
    code
}

/// Runs a translation on each of `rows` rows of readings and writes an answer
/// record for each.
#[inline]
pub fn run_rows(
    translation: &[u8],
    rows: u32,
    readings: &[i32],
    allowances: Allowances,
    cells: &mut [u8],
    records: &mut [u8],
) -> u64 {
    let mut lent = Lent::of(cells);
    let code = unsafe {
        zifnora_run_rows_slice(
            translation.as_ptr(),
            translation.len(),
            rows,
            readings.as_ptr(),
            readings.len(),
            allowances.steps,
            allowances.nesting,
            allowances.cells,
            &mut lent,
            records.as_mut_ptr(),
            records.len(),
        )
    };
    assert!(lent == Lent::of(cells), "the pair is as it was");
    code
}

/// Looks for the smallest value of a reading with which the run ends in a number;
/// `found` opens the code.
#[inline]
pub fn find_reading(
    translation: &[u8],
    readings: &[i32],
    search: Search,
    allowances: Allowances,
    cells: &mut [u8],
) -> u64 {
    let mut lent = Lent::of(cells);
    let code = unsafe {
        zifnora_find_reading_slice(
            translation.as_ptr(),
            translation.len(),
            readings.as_ptr(),
            readings.len(),
            search.position,
            search.lowest,
            search.highest,
            search.wanted,
            allowances.steps,
            allowances.nesting,
            allowances.cells,
            &mut lent,
        )
    };
    assert!(lent == Lent::of(cells), "the pair is as it was");
    code
}

/// Translates a sheet into `out`, runs the translation and writes the answer
/// record.
#[inline]
pub fn translate_and_run(
    sheet: &[u8],
    out: &mut [u8],
    readings: &[i32],
    allowances: Allowances,
    cells: &mut [u8],
    record: &mut [u8],
) -> u64 {
    let mut lent = Lent::of(cells);
    let code = unsafe {
        zifnora_translate_and_run_slice(
            sheet.as_ptr(),
            sheet.len(),
            out.as_mut_ptr(),
            out.len(),
            readings.as_ptr(),
            readings.len(),
            allowances.steps,
            allowances.nesting,
            allowances.cells,
            &mut lent,
            record.as_mut_ptr(),
            record.len(),
        )
    };
    assert!(lent == Lent::of(cells), "the pair is as it was");
    code
}

/// Lists the labels of a cell's context, newest first, into `out`.
#[inline]
pub fn list_context(cells: &[u8], cell: u32, out: &mut [u8]) -> u64 {
    unsafe {
        zifnora_list_context(
            cells.as_ptr(),
            cells.len(),
            cell,
            out.as_mut_ptr(),
            out.len(),
        )
    }
}

/// Writes the driver's view of an answer record into `out`.
#[inline]
pub fn driver_view(record: &[u8], out: &mut [u8]) -> u64 {
    unsafe { zifnora_driver_view(record.as_ptr(), record.len(), out.as_mut_ptr(), out.len()) }
}

/// Opens what any call but `find_reading` returned: a length or a count, or the
/// refusal.
pub fn result(code: u64) -> Result<usize, Refusal> {
    match (code >> 32) as u16 {
        0 => Ok(code as u32 as usize),
        number => Err(Refusal::new(number, code as u32)),
    }
}

/// Opens what `find_reading` returned: the value found, none, or the refusal.
pub fn found(code: u64) -> Result<Option<i32>, Refusal> {
    match (code >> 32) as u16 {
        NUMBER => Ok(Some(code as u32 as i32)),
        NO_VALUE => Ok(None),
        number => Err(Refusal::new(number, code as u32)),
    }
}
