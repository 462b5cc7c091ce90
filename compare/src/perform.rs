//! Performs the calls on copies of their buffers, with guard bytes at both ends
//! of those that are written.

use crate::call::{After, RunInput};
use crate::interface::{Interface, Search};
use std::hint::black_box;

pub const GUARD: usize = 16;
const GUARD_BYTE: u8 = 0xA5;

fn guarded(bytes: &[u8]) -> Vec<u8> {
    let mut all = vec![GUARD_BYTE; GUARD];
    all.extend_from_slice(bytes);
    all.extend_from_slice(&[GUARD_BYTE; GUARD]);
    all
}

/// The part of a guarded buffer that was lent.
fn lent(buffer: &mut [u8]) -> &mut [u8] {
    let end = buffer.len() - GUARD;
    &mut buffer[GUARD..end]
}

/// A call that reads bytes and writes into an output.
pub fn written(input: &[u8], out: &[u8], call: impl FnOnce(&[u8], &mut [u8]) -> u64) -> After {
    let (copy, mut out) = (input.to_vec(), guarded(out));
    let code = call(&copy, lent(&mut out));
    After {
        code,
        out,
        cells: vec![],
        record: vec![],
        input_kept: black_box(copy) == input,
    }
}

pub fn translated_length(on: &dyn Interface, sheet: &[u8], room: u64) -> After {
    let copy = sheet.to_vec();
    let code = on.translated_length(&copy, room);
    After {
        code,
        out: vec![],
        cells: vec![],
        record: vec![],
        input_kept: black_box(copy) == sheet,
    }
}

pub fn run(on: &dyn Interface, file: &[u8], input: &RunInput) -> After {
    let (copy, readings) = (file.to_vec(), input.readings.clone());
    let (mut cells, mut record) = (guarded(&input.cells), guarded(&input.record));
    let code = on.run(
        &copy,
        &readings,
        input.allowances,
        lent(&mut cells),
        lent(&mut record),
    );
    After {
        code,
        out: vec![],
        cells,
        record,
        input_kept: black_box(copy) == file && black_box(readings) == input.readings,
    }
}

pub fn run_for_hirer(on: &dyn Interface, file: &[u8], set: u32, input: &RunInput) -> After {
    let (copy, readings) = (file.to_vec(), input.readings.clone());
    let (mut cells, mut record) = (guarded(&input.cells), guarded(&input.record));
    let code = on.run_for_hirer(
        &copy,
        set,
        &readings,
        input.allowances,
        lent(&mut cells),
        lent(&mut record),
    );
    After {
        code,
        out: vec![],
        cells,
        record,
        input_kept: black_box(copy) == file && black_box(readings) == input.readings,
    }
}

pub fn run_rows(on: &dyn Interface, file: &[u8], rows: u32, input: &RunInput) -> After {
    let (copy, readings) = (file.to_vec(), input.readings.clone());
    let (mut cells, mut records) = (guarded(&input.cells), guarded(&input.record));
    let code = on.run_rows(
        &copy,
        rows,
        &readings,
        input.allowances,
        lent(&mut cells),
        lent(&mut records),
    );
    After {
        code,
        out: vec![],
        cells,
        record: records,
        input_kept: black_box(copy) == file && black_box(readings) == input.readings,
    }
}

pub fn joined(on: &dyn Interface, sheet: &[u8], out: &[u8], input: &RunInput) -> After {
    let (copy, readings) = (sheet.to_vec(), input.readings.clone());
    let (mut cells, mut record) = (guarded(&input.cells), guarded(&input.record));
    let mut out = guarded(out);
    let code = on.translate_and_run(
        &copy,
        lent(&mut out),
        &readings,
        input.allowances,
        lent(&mut cells),
        lent(&mut record),
    );
    After {
        code,
        out,
        cells,
        record,
        input_kept: black_box(copy) == sheet && black_box(readings) == input.readings,
    }
}

pub fn find_reading(on: &dyn Interface, file: &[u8], search: Search, input: &RunInput) -> After {
    let (copy, readings) = (file.to_vec(), input.readings.clone());
    let mut cells = guarded(&input.cells);
    let code = on.find_reading(&copy, &readings, search, input.allowances, lent(&mut cells));
    After {
        code,
        out: vec![],
        cells,
        record: vec![],
        input_kept: black_box(copy) == file && black_box(readings) == input.readings,
    }
}
