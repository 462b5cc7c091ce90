//! The calls that both sides offer. The archive's side is `archive::Archive`,
//! the model's side is `model::Model`.

pub use zifnora::{Allowances, Search};

/// The C interface, with slices in place of pointers and lengths. Every call
/// returns a code: a number of the table in its bits from 32 on, and in its
/// low 32 bits a length, a count, a value or a place.
pub trait Interface {
    fn translate(&self, sheet: &[u8], out: &mut [u8]) -> u64;

    fn translated_length(&self, sheet: &[u8], room: u64) -> u64;

    fn canonical_sheet(&self, sheet: &[u8], out: &mut [u8]) -> u64;

    fn run(
        &self,
        translation: &[u8],
        readings: &[i32],
        allowances: Allowances,
        cells: &mut [u8],
        record: &mut [u8],
    ) -> u64;

    /// Bit i of `set` is reading i.
    fn run_for_hirer(
        &self,
        translation: &[u8],
        set: u32,
        readings: &[i32],
        allowances: Allowances,
        cells: &mut [u8],
        record: &mut [u8],
    ) -> u64;

    fn run_rows(
        &self,
        translation: &[u8],
        rows: u32,
        readings: &[i32],
        allowances: Allowances,
        cells: &mut [u8],
        records: &mut [u8],
    ) -> u64;

    fn find_reading(
        &self,
        translation: &[u8],
        readings: &[i32],
        search: Search,
        allowances: Allowances,
        cells: &mut [u8],
    ) -> u64;

    fn translate_and_run(
        &self,
        sheet: &[u8],
        out: &mut [u8],
        readings: &[i32],
        allowances: Allowances,
        cells: &mut [u8],
        record: &mut [u8],
    ) -> u64;

    fn list_context(&self, cells: &[u8], cell: u32, out: &mut [u8]) -> u64;

    fn driver_view(&self, record: &[u8], out: &mut [u8]) -> u64;
}

/// The table's number in a code, 0 where nothing is refused; of a search also 24.
pub fn refusal(code: u64) -> u16 {
    (code >> 32) as u16
}

/// A code in words.
pub fn shown(code: u64) -> String {
    format!("{} with {}", refusal(code), code as u32)
}

/// The length or count in a code, if nothing is refused.
pub fn count(code: u64) -> Option<usize> {
    (refusal(code) == 0).then_some(code as u32 as usize)
}

/// The value in the code of a search that has found one.
pub fn found(code: u64) -> Option<i32> {
    (code >> 32 == 0).then_some(code as u32 as i32)
}
