//! Random input: sheets, typed or not, translations, damage, allowances, buffers,
//! answer records, searches and pairs of sheets.

pub mod answer_record;
pub mod case;
pub mod ceiling;
pub mod damage;
pub mod deep;
pub mod expr;
pub mod foreign;
pub mod given_back;
pub mod infer;
mod leaf;
pub mod one_change;
pub mod plan;
pub mod random;
pub mod reached;
pub mod regroup;
pub mod renumber;
pub mod repeat;
pub mod search;
pub mod search_sheet;
pub mod sheet;
pub mod sizes;
pub mod targeted;
pub mod template;
pub mod translation;
pub mod typed;
mod typed_break;
pub mod typed_ceiling;
pub mod typed_damage;

#[cfg(test)]
mod pair_tests;
#[cfg(test)]
mod search_tests;
#[cfg(test)]
mod tests;
#[cfg(test)]
mod typed_tests;
