//! The model behind the same calls as the C interface.

use super::answer::RECORD;
use super::batch::Rows;
use super::hirer::Hire;
use super::search::Given;
use super::{run, BatchBehaviour, CanonicalBehaviour, HirerBehaviour, Model, Refusal};
use super::{SearchBehaviour, ViewBehaviour};
use crate::interface::{Allowances, Interface, Search};
use zifnora::numbers::SHORT_OUTPUT;

pub fn packed(refusal: Refusal) -> u64 {
    (refusal.number as u64) << 32 | refusal.place as u64
}

/// The code of a length, or of a refusal.
fn code(result: Result<usize, Refusal>) -> u64 {
    match result {
        Ok(length) => length as u64,
        Err(refusal) => packed(refusal),
    }
}

impl<B> Interface for Model<B>
where
    B: BatchBehaviour + CanonicalBehaviour + HirerBehaviour + SearchBehaviour + ViewBehaviour,
{
    fn translate(&self, sheet: &[u8], out: &mut [u8]) -> u64 {
        code(self.0.translate_into(sheet, out))
    }

    fn translated_length(&self, sheet: &[u8], room: u64) -> u64 {
        code(self.0.translated_length(sheet, room))
    }

    fn canonical_sheet(&self, sheet: &[u8], out: &mut [u8]) -> u64 {
        code(self.0.canonical_sheet(sheet, out))
    }

    fn run(
        &self,
        translation: &[u8],
        readings: &[i32],
        allowances: Allowances,
        cells: &mut [u8],
        record: &mut [u8],
    ) -> u64 {
        if record.len() < RECORD {
            return packed(Refusal::new(SHORT_OUTPUT, 0));
        }
        let answer = run::run(&self.0, translation, readings, allowances, cells);
        record[..RECORD].copy_from_slice(&answer.record());
        0
    }

    fn run_for_hirer(
        &self,
        translation: &[u8],
        set: u32,
        readings: &[i32],
        allowances: Allowances,
        cells: &mut [u8],
        record: &mut [u8],
    ) -> u64 {
        if record.len() < RECORD {
            return packed(Refusal::new(SHORT_OUTPUT, 0));
        }
        let hire = Hire {
            set,
            readings,
            allowances,
        };
        let answer = self.0.run_for_hirer(translation, hire, cells);
        record[..RECORD].copy_from_slice(&answer.record());
        0
    }

    fn run_rows(
        &self,
        translation: &[u8],
        rows: u32,
        readings: &[i32],
        allowances: Allowances,
        cells: &mut [u8],
        records: &mut [u8],
    ) -> u64 {
        let rows = Rows {
            count: rows,
            readings,
            allowances,
        };
        code(self.0.run_rows(translation, rows, cells, records))
    }

    fn find_reading(
        &self,
        translation: &[u8],
        readings: &[i32],
        search: Search,
        allowances: Allowances,
        cells: &mut [u8],
    ) -> u64 {
        let given = Given {
            readings,
            search,
            allowances,
        };
        let found = self.0.find_reading(translation, given, cells);
        self.0.found_code(found)
    }

    fn translate_and_run(
        &self,
        sheet: &[u8],
        out: &mut [u8],
        readings: &[i32],
        allowances: Allowances,
        cells: &mut [u8],
        record: &mut [u8],
    ) -> u64 {
        if record.len() < RECORD {
            return packed(Refusal::new(SHORT_OUTPUT, 0));
        }
        let answer = self
            .0
            .translate_and_run(sheet, out, readings, allowances, cells);
        record[..RECORD].copy_from_slice(&answer.record());
        0
    }

    fn list_context(&self, cells: &[u8], cell: u32, out: &mut [u8]) -> u64 {
        match self.0.list(cells, cell, out) {
            Ok(count) => count as u64,
            Err(refusal) => packed(refusal),
        }
    }

    fn driver_view(&self, record: &[u8], out: &mut [u8]) -> u64 {
        code(self.0.driver_view(record, out))
    }
}
