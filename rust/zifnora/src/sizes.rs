//! The sizes and ceilings of documents 01 and 02.

/// "Sheet, at most 32,768 bytes".
pub const SHEET_BYTES: usize = 32_768;

/// "Translation, at most 40,960 bytes"; a buffer so long is always enough.
pub const TRANSLATION_BYTES: usize = 40_960;

pub const MOST_READINGS: usize = 32;
pub const MOST_CONSTRUCTORS: usize = 64;
pub const MOST_FUNCTIONS: usize = 64;
pub const MOST_FORMALS: usize = 512;
pub const MOST_NODES: usize = 1024;

/// Of a constructor's arity, and of a function's parameters.
pub const MOST_FIELDS: usize = 8;

/// Of the types of a typed sheet, which start at 1; 0 is that of numbers.
pub const MOST_TYPES: usize = 64;

/// Of the nesting allowance, which starts at 1.
pub const MOST_NESTING: u32 = 1024;

/// Of the cell allowance, which starts at 0: how many cells may be alive
/// together.
pub const MOST_CELLS: u32 = 960;

/// Of the rows of a batch, which start at 0.
pub const MOST_ROWS: u32 = 16;

/// Of the values that a search tries, which start at 1.
pub const MOST_VALUES: u32 = 1024;

/// Bytes lent for each cell: a label, the number of the previous cell, and an
/// entry for each position of a parameter.
pub const CELL_BYTES: usize = 68;

/// Bytes of an entry of a cell: kind (0 empty, 1 number, 2 constructor), then
/// the number in 4 bytes, or node and context, and two zero bytes; in place of
/// these the eighth entry has the function whose call made the cell.
pub const ENTRY_BYTES: usize = 8;

/// Bytes of a label in a context listing.
pub const LABEL_BYTES: usize = 2;

/// The answer record.
pub const ANSWER_BYTES: usize = 20;

/// The driver's view of an answer record.
pub const VIEW_BYTES: usize = 6;
