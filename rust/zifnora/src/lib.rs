//! Rule sheets of document 01: a builder of sheets, their canonical form, their
//! translation, its run, the search for a reading, the listing of a context, and
//! the driver's view of an answer. The calls are those of the archive
//! `libzifnora_c.a`, whose code is proved against the definitions in this
//! repository; nothing here but `build_sheet` and the decoding of codes, records
//! and views is code of its own.
//!
//! `translate`, `translated_length`, `canonical_sheet`, `run`, `run_for_hirer`, `run_rows`, `find_reading`,
//! `translate_and_run`, `list_context` and `driver_view` have typed results; the module `raw` has the
//! same calls with the codes and record bytes as the archive gives them.

mod allowed;
mod answer;
pub mod build_sheet;
#[cfg(feature = "archive")]
mod calls;
#[cfg(feature = "archive")]
mod declared;
pub mod kinds;
pub mod numbers;
#[cfg(feature = "archive")]
pub mod raw;
mod search;
pub mod sizes;
mod typed_program;

pub use allowed::Allowed;
pub use answer::{Allowances, Answer, Ended, Fault, Record, Refusal, Stop};
#[cfg(feature = "archive")]
pub use calls::{
    canonical_sheet, driver_view, find_reading, list_context, list_context_into, run,
    run_for_hirer, run_rows, translate, translate_and_run, translated_length,
};
pub use search::Search;

/// The example of the README, which `cargo test` runs.
#[cfg(all(doctest, feature = "archive"))]
#[doc = include_str!("../README.md")]
struct Readme;
