//! The linked archive behind the calls that are compared.

use crate::interface::{Allowances, Interface, Search};
use zifnora::raw;

pub struct Archive;

impl Interface for Archive {
    fn translate(&self, sheet: &[u8], out: &mut [u8]) -> u64 {
        raw::translate(sheet, out)
    }

    fn translated_length(&self, sheet: &[u8], room: u64) -> u64 {
        raw::translated_length(sheet, room)
    }

    fn canonical_sheet(&self, sheet: &[u8], out: &mut [u8]) -> u64 {
        raw::canonical_sheet(sheet, out)
    }

    fn run(
        &self,
        translation: &[u8],
        readings: &[i32],
        allowances: Allowances,
        cells: &mut [u8],
        record: &mut [u8],
    ) -> u64 {
        raw::run(translation, readings, allowances, cells, record)
    }

    fn run_for_hirer(
        &self,
        translation: &[u8],
        set: u32,
        readings: &[i32],
        allowances: Allowances,
        cells: &mut [u8],
        record: &mut [u8],
    ) -> u64 {
        raw::run_for_hirer(translation, set, readings, allowances, cells, record)
    }

    fn run_rows(
        &self,
        translation: &[u8],
        rows: u32,
        readings: &[i32],
        allowances: Allowances,
        cells: &mut [u8],
        records: &mut [u8],
    ) -> u64 {
        raw::run_rows(translation, rows, readings, allowances, cells, records)
    }

    fn find_reading(
        &self,
        translation: &[u8],
        readings: &[i32],
        search: Search,
        allowances: Allowances,
        cells: &mut [u8],
    ) -> u64 {
        raw::find_reading(translation, readings, search, allowances, cells)
    }

    fn translate_and_run(
        &self,
        sheet: &[u8],
        out: &mut [u8],
        readings: &[i32],
        allowances: Allowances,
        cells: &mut [u8],
        record: &mut [u8],
    ) -> u64 {
        raw::translate_and_run(sheet, out, readings, allowances, cells, record)
    }

    fn list_context(&self, cells: &[u8], cell: u32, out: &mut [u8]) -> u64 {
        raw::list_context(cells, cell, out)
    }

    fn driver_view(&self, record: &[u8], out: &mut [u8]) -> u64 {
        raw::driver_view(record, out)
    }
}
