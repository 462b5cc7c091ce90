//! Faults in the checks of a search.

use super::fault::Fault;
use super::Faulty;
use crate::interface::Search;
use crate::model::search::{Given, VALUES};
use crate::model::translation::{self, Translation};
use crate::model::{Behaviour, Refusal, SearchBehaviour};
use zifnora::numbers::{BAD_ALLOWANCE, BAD_RANGE, BAD_READINGS, OUT_OF_RANGE};

/// A search as a fault takes it.
pub fn taken(fault: Fault, search: Search) -> Search {
    let Search {
        position,
        lowest,
        highest,
        ..
    } = search;
    let at = |position| Search { position, ..search };
    match fault {
        Fault::SearchPositionIn5Bits => at(position % 32),
        Fault::SearchPositionIn8Bits => at(position as u8 as u32),
        Fault::SearchPositionIn16Bits => at(position as u16 as u32),
        Fault::SearchInvertedTurned if lowest > highest => Search {
            lowest: highest,
            highest: lowest,
            ..search
        },
        _ => search,
    }
}

/// How many values there are, without reduction.
fn count(search: Search) -> i64 {
    search.highest as i64 - search.lowest as i64 + 1
}

pub fn bad_range(fault: Fault, search: Search, readings: u16) -> bool {
    let Search {
        position,
        lowest,
        highest,
        ..
    } = search;
    let inverted = match fault {
        Fault::SearchInvertedNone => false,
        Fault::SearchUnsignedRange => lowest as u32 > highest as u32,
        Fault::SearchOneValueRefused => lowest >= highest,
        _ => lowest > highest,
    };
    let many = match fault {
        Fault::SearchManyValues => count(search) > VALUES + 1,
        Fault::SearchFewValues => count(search) > VALUES - 1,
        Fault::SearchCountWrapped => count(search) as i32 > VALUES as i32,
        Fault::SearchCountIn16Bits => count(search) as u16 > VALUES as u16,
        _ => count(search) > VALUES,
    };
    let readings = readings as u32;
    let past = match fault {
        Fault::SearchPositionUnchecked => false,
        Fault::SearchPositionAtCount => position > readings,
        Fault::SearchLastPosition => position.saturating_add(1) >= readings,
        _ => position >= readings,
    };
    inverted || many || past
}

/// The values of a range that are tried where they are counted otherwise.
pub fn counted(fault: Fault, search: Search) -> Option<Vec<i32>> {
    let count = match fault {
        Fault::SearchCountWrapped => count(search) as i32,
        Fault::SearchCountIn16Bits => count(search) as u16 as i32,
        _ => return None,
    };
    let values = (0..count).map(|above| search.lowest.wrapping_add(above));
    Some(values.collect())
}

/// The refusal that a fault gives in place of another where both hold.
pub fn wrong_order(
    faulty: &Faulty,
    file: &[u8],
    given: Given,
    lent: usize,
    result: Result<Translation, Refusal>,
) -> Result<Translation, Refusal> {
    let Err(refusal) = result else {
        return result;
    };
    let read = translation::read(faulty, file).ok();
    // The range alone, where there is no file to have readings.
    let readings = read.map_or(u16::MAX, |read| read.readings);
    let bad_range = faulty.bad_range(given.search, readings);
    let past = given.search.position >= readings as u32;
    let (instead, holds) = match (faulty.0, refusal.number) {
        (Fault::SearchRangeBeforeFile, ..=OUT_OF_RANGE) => (BAD_RANGE, bad_range),
        (Fault::SearchRangeBeforeReadings, BAD_READINGS) => (BAD_RANGE, bad_range),
        (Fault::SearchRangeBeforeAllowance, BAD_ALLOWANCE) => (BAD_RANGE, bad_range),
        (Fault::SearchPositionBeforeAllowance, BAD_ALLOWANCE) => (BAD_RANGE, past),
        (Fault::SearchAllowanceFirst, BAD_READINGS) => {
            let bad = faulty.bad_allowance(given.allowances, lent);
            (BAD_ALLOWANCE, bad)
        }
        _ => return Err(refusal),
    };
    match holds {
        true => Err(Refusal::new(instead, 0)),
        false => Err(refusal),
    }
}
