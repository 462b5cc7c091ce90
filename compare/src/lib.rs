//! Comparison of an implementation of document 01 ("Rule sheets and their
//! label translation"), reached through its C interface, with an independent
//! model written from the papers alone. Of the crate `zifnora` both sides
//! share the numbers and kinds by name, the builder of sheets and two plain
//! structs; the model reads, writes and decodes by itself.

mod all_kept;
#[cfg(feature = "archive")]
pub mod archive;
pub mod call;
mod canonical;
mod canonical_runs;
pub mod check;
pub mod examine;
mod examine_batch;
mod examine_canonical;
mod examine_hirer;
mod examine_list;
mod examine_search;
mod examine_view;
pub mod faulty;
pub mod generate;
mod hired;
pub mod interface;
mod labelling;
pub mod model;
mod own_answer;
mod perform;
pub mod replay;
mod searched;
pub mod selftest;
pub mod tally;
mod typed;
mod viewed;
pub mod yardsticks;
