//! The independent implementation of document 01. Each of its steps stands in
//! one of these files as the papers have it; `Behaviour`, `TypeBehaviour`,
//! `CellBehaviour`, `BatchBehaviour`, `HirerBehaviour`, `SearchBehaviour`,
//! `ViewBehaviour` and `CanonicalBehaviour` name the steps that a deliberately
//! faulty model (`crate::faulty`) does otherwise.

pub mod answer;
pub mod batch;
pub mod behaviour;
pub mod canonical;
pub mod canonical_behaviour;
pub mod cell_behaviour;
pub mod cells;
pub mod driver_view;
pub mod hirer;
pub mod joined;
pub mod kept;
pub mod listing;
pub mod live_cells;
pub mod name;
pub mod operator;
pub mod plain;
pub mod port;
pub mod records;
pub mod rules;
pub mod run;
pub mod search;
pub mod search_behaviour;
pub mod sheet;
pub mod translate;
pub mod translation;
pub mod trees;
pub mod type_behaviour;
pub mod types;
pub mod typing;

#[cfg(test)]
mod tests;

use crate::interface::Interface;
pub use behaviour::{BatchBehaviour, Behaviour, Correct, HirerBehaviour, ViewBehaviour};
pub use canonical_behaviour::CanonicalBehaviour;
pub use cell_behaviour::CellBehaviour;
pub use search_behaviour::SearchBehaviour;
pub use type_behaviour::TypeBehaviour;
pub use zifnora::Refusal;

/// A model with a behaviour, behind the calls that are compared.
pub struct Model<B>(pub B);

/// The model as the papers have it, behind the same calls. It is compiled in
/// this crate, which the times that `bench` takes of it go by.
pub fn correct() -> &'static dyn Interface {
    &Model(Correct)
}
