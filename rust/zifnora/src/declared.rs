//! The calls as the archive declares them, and the pair that lends the cells.

/// A lent buffer as the five calls that run take it: address and length,
/// behind a pointer. It is as it was after the call.
#[repr(C)]
#[derive(PartialEq)]
pub struct Lent {
    data: *mut u8,
    length: usize,
}

impl Lent {
    pub fn of(bytes: &mut [u8]) -> Lent {
        Lent {
            data: bytes.as_mut_ptr(),
            length: bytes.len(),
        }
    }
}

extern "C" {
    pub fn zifnora_translate(
        sheet: *const u8,
        sheet_length: usize,
        out: *mut u8,
        out_length: usize,
    ) -> u64;

    pub fn zifnora_canonical_sheet(
        sheet: *const u8,
        sheet_length: usize,
        out: *mut u8,
        out_length: usize,
    ) -> u64;

    pub fn zifnora_translated_length(sheet: *const u8, sheet_length: usize, room: u64) -> u64;

    pub fn zifnora_run_slice(
        translation: *const u8,
        translation_length: usize,
        readings: *const i32,
        readings_count: usize,
        steps: u32,
        nesting: u32,
        cells_allowed: u32,
        cells: *mut Lent,
        record: *mut u8,
        record_length: usize,
    ) -> u64;

    pub fn zifnora_run_for_hirer_slice(
        translation: *const u8,
        translation_length: usize,
        set: u32,
        readings: *const i32,
        readings_count: usize,
        steps: u32,
        nesting: u32,
        cells_allowed: u32,
        cells: *mut Lent,
        record: *mut u8,
        record_length: usize,
    ) -> u64;

    pub fn zifnora_run_rows_slice(
        translation: *const u8,
        translation_length: usize,
        rows: u32,
        readings: *const i32,
        readings_count: usize,
        steps: u32,
        nesting: u32,
        cells_allowed: u32,
        cells: *mut Lent,
        records: *mut u8,
        records_length: usize,
    ) -> u64;

    pub fn zifnora_find_reading_slice(
        translation: *const u8,
        translation_length: usize,
        readings: *const i32,
        readings_count: usize,
        position: u32,
        lowest: i32,
        highest: i32,
        wanted: i32,
        steps: u32,
        nesting: u32,
        cells_allowed: u32,
        cells: *mut Lent,
    ) -> u64;

    pub fn zifnora_translate_and_run_slice(
        sheet: *const u8,
        sheet_length: usize,
        out: *mut u8,
        out_length: usize,
        readings: *const i32,
        readings_count: usize,
        steps: u32,
        nesting: u32,
        cells_allowed: u32,
        cells: *mut Lent,
        record: *mut u8,
        record_length: usize,
    ) -> u64;

    pub fn zifnora_list_context(
        cells: *const u8,
        cells_length: usize,
        cell: u32,
        out: *mut u8,
        out_length: usize,
    ) -> u64;

    pub fn zifnora_driver_view(
        record: *const u8,
        record_length: usize,
        out: *mut u8,
        out_length: usize,
    ) -> u64;
}
