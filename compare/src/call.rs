//! One call of the interface with all its input, earlier bytes of the output
//! buffers included; and what it leaves behind.

use crate::interface::{refusal, Allowances, Interface, Search};
use crate::model::answer::{Answer, RECORD};
use crate::perform::{
    find_reading, joined, run, run_for_hirer, run_rows, translated_length, written, GUARD,
};

#[derive(Clone, Debug)]
pub struct RunInput {
    pub readings: Vec<i32>,
    pub allowances: Allowances,
    /// Lent cells and record, or records, with their earlier bytes; a search has
    /// no record.
    pub cells: Vec<u8>,
    pub record: Vec<u8>,
}

#[derive(Clone, Debug)]
pub enum Call {
    Translate {
        sheet: Vec<u8>,
        out: Vec<u8>,
    },
    /// The stated length in place of an output.
    Length {
        sheet: Vec<u8>,
        room: u64,
    },
    /// `other` is the second sheet of a pair, or empty.
    Canonical {
        sheet: Vec<u8>,
        out: Vec<u8>,
        other: Vec<u8>,
    },
    /// `of` is the sheet whose unchanged translation `file` is, if any.
    Run {
        of: Option<Vec<u8>>,
        file: Vec<u8>,
        input: RunInput,
    },
    /// `of` as in a run, but for more readings that `file` may ask for; `other`
    /// agrees with the readings of the input on the set.
    Hirer {
        of: Option<Vec<u8>>,
        file: Vec<u8>,
        set: u32,
        input: RunInput,
        other: Vec<i32>,
    },
    /// `of` as in a run; the input has the readings and records of all rows.
    Rows {
        of: Option<Vec<u8>>,
        file: Vec<u8>,
        rows: u32,
        input: RunInput,
    },
    /// `of` as in a run.
    Search {
        of: Option<Vec<u8>>,
        file: Vec<u8>,
        search: Search,
        input: RunInput,
    },
    Joined {
        sheet: Vec<u8>,
        out: Vec<u8>,
        input: RunInput,
    },
    List {
        cells: Vec<u8>,
        cell: u32,
        out: Vec<u8>,
    },
    /// `other` is the second record of a pair.
    View {
        record: Vec<u8>,
        out: Vec<u8>,
        other: Vec<u8>,
    },
}

/// One run of a call: a batch has one for each row.
pub struct OneRun<'a> {
    pub readings: &'a [i32],
    pub allowances: Allowances,
    pub answer: Answer,
}

/// What a call returned, and the buffers after it. Output buffers carry guard
/// bytes at both ends.
#[derive(Clone, Debug, PartialEq, Eq)]
pub struct After {
    pub code: u64,
    pub out: Vec<u8>,
    pub cells: Vec<u8>,
    pub record: Vec<u8>,
    /// The input slices are as they were.
    pub input_kept: bool,
}

/// The lent part of a buffer in an `After`.
pub fn inner(buffer: &[u8]) -> &[u8] {
    if buffer.is_empty() {
        return buffer;
    }
    &buffer[GUARD..buffer.len() - GUARD]
}

impl Call {
    pub fn name(&self) -> &'static str {
        match self {
            Call::Translate { .. } => "translate",
            Call::Length { .. } => "translated_length",
            Call::Canonical { .. } => "canonical_sheet",
            Call::Run { .. } => "run",
            Call::Hirer { .. } => "run_for_hirer",
            Call::Rows { .. } => "run_rows",
            Call::Search { .. } => "find_reading",
            Call::Joined { .. } => "translate_and_run",
            Call::List { .. } => "list_context",
            Call::View { .. } => "driver_view",
        }
    }

    /// Performs the call on copies of its buffers.
    pub fn perform(&self, on: &dyn Interface) -> After {
        match self {
            Call::Translate { sheet, out } => {
                written(sheet, out, |sheet, out| on.translate(sheet, out))
            }
            Call::Length { sheet, room } => translated_length(on, sheet, *room),
            Call::Canonical { sheet, out, .. } => {
                written(sheet, out, |sheet, out| on.canonical_sheet(sheet, out))
            }
            Call::Run { file, input, .. } => run(on, file, input),
            Call::Hirer {
                file, set, input, ..
            } => run_for_hirer(on, file, *set, input),
            Call::Rows {
                file, rows, input, ..
            } => run_rows(on, file, *rows, input),
            Call::Search {
                file,
                search,
                input,
                ..
            } => find_reading(on, file, *search, input),
            Call::Joined { sheet, out, input } => joined(on, sheet, out, input),
            Call::List { cells, cell, out } => {
                written(cells, out, |cells, out| on.list_context(cells, *cell, out))
            }
            Call::View { record, out, .. } => {
                written(record, out, |record, out| on.driver_view(record, out))
            }
        }
    }

    /// The sheet that is run.
    pub fn source(&self) -> Option<&[u8]> {
        match self {
            Call::Run { of, .. } | Call::Rows { of, .. } | Call::Hirer { of, .. } => of.as_deref(),
            Call::Search { of, .. } => of.as_deref(),
            Call::Joined { sheet, .. } => Some(sheet),
            Call::Translate { .. } | Call::Length { .. } | Call::Canonical { .. } => None,
            Call::List { .. } | Call::View { .. } => None,
        }
    }

    /// The sheet that is run and whose runs are compared with its meaning; a
    /// hirer's run is compared with the owner's instead, and a search with single
    /// runs.
    pub fn sheet(&self) -> Option<&[u8]> {
        match self {
            Call::Hirer { .. } | Call::Search { .. } => None,
            _ => self.source(),
        }
    }

    /// The runs whose records the call left.
    pub fn runs(&self, after: &After) -> Vec<OneRun<'_>> {
        let (rows, input) = match self {
            Call::Run { input, .. } | Call::Hirer { input, .. } | Call::Joined { input, .. } => {
                (1, input)
            }
            Call::Rows { rows, input, .. } => (*rows as usize, input),
            Call::Translate { .. } | Call::Length { .. } | Call::Search { .. } => return vec![],
            Call::Canonical { .. } | Call::List { .. } | Call::View { .. } => return vec![],
        };
        if refusal(after.code) != 0 || rows == 0 {
            return vec![];
        }
        let each = input.readings.len() / rows;
        let records = inner(&after.record).chunks_exact(RECORD).take(rows);
        let runs = records.enumerate().filter_map(|(row, record)| {
            Some(OneRun {
                readings: &input.readings[row * each..][..each],
                allowances: input.allowances,
                answer: Answer::from_record(record)?,
            })
        });
        runs.collect()
    }
}
