//! Which value of a reading gives a number (document 02, request 12).

use super::answer::Answer;
use super::port::packed;
use super::search_behaviour::SearchBehaviour;
use super::translation::{self, Translation};
use super::{run, Refusal};
use crate::interface::{Allowances, Search};
use zifnora::numbers::{BAD_RANGE, NO_VALUE, NUMBER};

/// Not "more than 1,024 values".
pub const VALUES: i64 = 1024;

/// What a search is given beside the file and the lent cells.
#[derive(Clone, Copy)]
pub struct Given<'a> {
    pub readings: &'a [i32],
    pub search: Search,
    pub allowances: Allowances,
}

/// "the smallest value for that reading with which the run, at the given
/// allowances, ends in that number"; none "only if no value in the range does
/// it".
pub fn find_reading<B: SearchBehaviour>(
    behaviour: &B,
    file: &[u8],
    given: Given,
    lent: &mut [u8],
) -> Result<Option<i32>, Refusal> {
    let translation = behaviour.accept_search(file, given, lent.len())?;
    Ok(behaviour.search(&translation, given, lent))
}

/// "23 .. after 10, place 0".
pub fn accept<B: SearchBehaviour>(
    behaviour: &B,
    file: &[u8],
    given: Given,
    lent: usize,
) -> Result<Translation, Refusal> {
    let translation = translation::read(behaviour, file)?;
    run::check_input(
        behaviour,
        &translation,
        given.readings,
        given.allowances,
        lent,
    )?;
    if behaviour.bad_range(given.search, translation.readings) {
        return Err(Refusal::new(BAD_RANGE, 0));
    }
    Ok(translation)
}

/// "lowest above highest, more than 1,024 values, or position not below I".
pub fn bad_range(search: Search, readings: u16) -> bool {
    let values = search.highest as i64 - search.lowest as i64 + 1;
    search.lowest > search.highest || values > VALUES || search.position >= readings as u32
}

/// "the runs from the lowest on, in turn, to the one found or the highest".
pub fn search<B: SearchBehaviour>(
    behaviour: &B,
    translation: &Translation,
    given: Given,
    lent: &mut [u8],
) -> Option<i32> {
    let mut before = Vec::new();
    for value in behaviour.values(given.search) {
        let answer = behaviour.run_with(translation, given, value, &before, lent);
        if behaviour.does(&answer, given.search.wanted) {
            return Some(value);
        }
        before.push(answer);
    }
    None
}

pub fn values(search: Search) -> Vec<i32> {
    (search.lowest..=search.highest).collect()
}

/// The run with this value for the reading, with the cells as the run before
/// left them. "The lent readings aren't written".
pub fn run_with<B: SearchBehaviour>(
    behaviour: &B,
    translation: &Translation,
    given: Given,
    value: i32,
    lent: &mut [u8],
) -> Answer {
    let mut readings = given.readings.to_vec();
    readings[given.search.position as usize] = value;
    behaviour.run_accepted(translation, &readings, given.allowances, lent)
}

/// "A stopped or faulted run doesn't count", and a constructor is no number.
pub fn does(answer: &Answer, wanted: i32) -> bool {
    answer.outcome == NUMBER && answer.value == wanted
}

/// The value found in the low 32 bits, or 24 above them, or the refusal.
pub fn code(found: Result<Option<i32>, Refusal>) -> u64 {
    match found {
        Ok(Some(value)) => value as u32 as u64,
        Ok(None) => (NO_VALUE as u64) << 32,
        Err(refusal) => packed(refusal),
    }
}
