//! Faults in a search.

use super::fault::Fault;
use super::{search_range, Faulty};
use crate::interface::Search;
use crate::model::answer::Answer;
use crate::model::search::{self, Given};
use crate::model::translation::{self, Translation};
use crate::model::{Behaviour, Refusal, SearchBehaviour};
use zifnora::numbers::{is_fault, is_stop, BAD_RANGE, CONSTRUCTOR, NO_VALUE, NUMBER};
use zifnora::sizes::CELL_BYTES;

// As in `Behaviour`, each method is the model's own step but for the faults
// that it names.
impl SearchBehaviour for Faulty {
    fn find_reading(
        &self,
        file: &[u8],
        given: Given,
        lent: &mut [u8],
    ) -> Result<Option<i32>, Refusal> {
        let given = Given {
            search: search_range::taken(self.0, given.search),
            ..given
        };
        let found = search::find_reading(self, file, given, lent);
        match (self.0, found) {
            (Fault::SearchOffsetReturned, Ok(Some(value))) => {
                Ok(Some(value.wrapping_sub(given.search.lowest)))
            }
            (Fault::SearchWantedReturned, Ok(Some(_))) => Ok(Some(given.search.wanted)),
            (Fault::SearchStopReturned, Ok(None)) => last_stop(self, file, given, lent),
            (Fault::SearchPlaced, Err(refusal)) if refusal.number == BAD_RANGE => {
                Err(Refusal::new(BAD_RANGE, given.search.position))
            }
            (Fault::SearchRefusedRuns, Err(refusal)) if refusal.number == BAD_RANGE => {
                run_as_lent(self, file, given, lent);
                found
            }
            _ => found,
        }
    }

    fn accept_search(
        &self,
        file: &[u8],
        given: Given,
        lent: usize,
    ) -> Result<Translation, Refusal> {
        let result = search::accept(self, file, given, lent);
        search_range::wrong_order(self, file, given, lent, result)
    }

    fn bad_range(&self, search: Search, readings: u16) -> bool {
        search_range::bad_range(self.0, search, readings)
    }

    fn search(&self, translation: &Translation, given: Given, lent: &mut [u8]) -> Option<i32> {
        let runs = Runs {
            faulty: self,
            translation,
            given,
        };
        match self.0 {
            Fault::SearchLargest => runs.largest(lent),
            Fault::SearchHalved => runs.halved(lent),
            Fault::SearchGivenFirst => runs.given_first(lent),
            Fault::SearchCellsRestored => runs.restored(lent),
            _ => runs.left_otherwise(lent),
        }
    }

    fn values(&self, search: Search) -> Vec<i32> {
        let values = search::values;
        match self.0 {
            Fault::SearchHighestFirst => values(search).into_iter().rev().collect(),
            Fault::SearchHighestUntried => (search.lowest..search.highest).collect(),
            Fault::SearchLowestUntried => values(search).split_off(1),
            Fault::SearchPastHighest => values(Search {
                highest: search.highest.saturating_add(1),
                ..search
            }),
            fault => search_range::counted(fault, search).unwrap_or_else(|| values(search)),
        }
    }

    fn run_with(
        &self,
        translation: &Translation,
        given: Given,
        value: i32,
        before: &[Answer],
        lent: &mut [u8],
    ) -> Answer {
        let (mut given, mut readings) = (given, given.readings.to_vec());
        if let Some(last) = before.last() {
            if ends(self.0, last.outcome) {
                return *last;
            }
            let taken = before.iter().map(|answer| answer.steps as u64).sum();
            let left = (given.allowances.steps as u64).saturating_sub(taken);
            match self.0 {
                Fault::SearchCellsCleared => lent[..CELL_BYTES * last.cells as usize].fill(0),
                Fault::SearchStepsShared => given.allowances.steps = left as u32,
                _ => {}
            }
        }
        set_reading(self.0, given.search.position, value, before, &mut readings);
        self.run_accepted(translation, &readings, given.allowances, lent)
    }

    fn does(&self, answer: &Answer, wanted: i32) -> bool {
        let Answer { outcome, value, .. } = *answer;
        let number = outcome == NUMBER;
        let counted = match self.0 {
            Fault::SearchStopCounted => is_stop(outcome),
            Fault::SearchFaultCounted => is_fault(outcome),
            Fault::SearchTagCounted => outcome == CONSTRUCTOR,
            Fault::SearchAtLeast => return number && value >= wanted,
            Fault::SearchWantedIn16Bits => return number && value as u16 == wanted as u16,
            Fault::SearchZeroMissed => return search::does(answer, wanted) && wanted != 0,
            _ => false,
        };
        search::does(answer, wanted) || counted && value == wanted
    }

    fn found_code(&self, found: Result<Option<i32>, Refusal>) -> u64 {
        match (self.0, found) {
            (Fault::SearchSignExtended, Ok(Some(value))) => value as i64 as u64,
            (Fault::SearchValueIn16Bits, Ok(Some(value))) => value as u16 as u64,
            (Fault::SearchNoneAsZero, Ok(None)) => 0,
            (Fault::SearchNonePlaced, Ok(None)) => (NO_VALUE as u64) << 32 | 1,
            (Fault::SearchNoneRefused, Ok(None)) => (BAD_RANGE as u64) << 32,
            _ => search::code(found),
        }
    }
}

/// Whether no run is done after one of this outcome.
fn ends(fault: Fault, outcome: u16) -> bool {
    match fault {
        Fault::SearchStopEnds => is_stop(outcome),
        Fault::SearchFaultEnds => is_fault(outcome),
        Fault::SearchConstructorEnds => outcome == CONSTRUCTOR,
        _ => false,
    }
}

/// Sets the reading, or others, for a run.
fn set_reading(fault: Fault, position: u32, value: i32, before: &[Answer], readings: &mut [i32]) {
    let (mut position, mut value) = (position as usize, value);
    match fault {
        Fault::SearchNextPosition => position = (position + 1) % readings.len(),
        Fault::SearchOthersZero => readings.fill(0),
        Fault::SearchOthersSet => readings.fill(value),
        Fault::SearchPreviousValue if before.is_empty() => return,
        Fault::SearchPreviousValue => value = value.wrapping_sub(1),
        _ => {}
    }
    // There may be no such reading where the position is not checked.
    if let Some(reading) = readings.get_mut(position) {
        *reading = value;
    }
}

/// The number of the stop of the last run, if it was one.
fn last_stop(
    faulty: &Faulty,
    file: &[u8],
    given: Given,
    lent: &mut [u8],
) -> Result<Option<i32>, Refusal> {
    let translation = translation::read(faulty, file)?;
    let last = search::run_with(faulty, &translation, given, given.search.highest, lent);
    match is_stop(last.outcome) {
        true => Err(Refusal::new(last.outcome, 0)),
        false => Ok(None),
    }
}

/// Runs on the readings as they are lent.
fn run_as_lent(faulty: &Faulty, file: &[u8], given: Given, lent: &mut [u8]) {
    let translation = translation::read(faulty, file).expect("23 is after its refusals");
    faulty.run_accepted(&translation, given.readings, given.allowances, lent);
}

/// The runs of a search.
struct Runs<'a> {
    faulty: &'a Faulty,
    translation: &'a Translation,
    given: Given<'a>,
}

impl Runs<'_> {
    fn run(&self, value: i32, lent: &mut [u8]) -> Answer {
        self.faulty
            .run_with(self.translation, self.given, value, &[], lent)
    }

    fn does(&self, value: i32, lent: &mut [u8]) -> bool {
        search::does(&self.run(value, lent), self.given.search.wanted)
    }

    fn values(&self) -> impl Iterator<Item = i32> {
        self.given.search.lowest..=self.given.search.highest
    }

    /// The last of all values that does it.
    fn largest(&self, lent: &mut [u8]) -> Option<i32> {
        self.values().filter(|&value| self.does(value, lent)).last()
    }

    /// Half of the values left out after each run, as if the numbers rose.
    fn halved(&self, lent: &mut [u8]) -> Option<i32> {
        let search = self.given.search;
        let (mut low, mut high) = (search.lowest as i64, search.highest as i64);
        while low <= high {
            let middle = (low + high).div_euclid(2);
            let answer = self.run(middle as i32, lent);
            match answer.outcome == NUMBER && answer.value >= search.wanted {
                true if answer.value == search.wanted => return Some(middle as i32),
                true => high = middle - 1,
                false => low = middle + 1,
            }
        }
        None
    }

    /// The reading as it is lent is tried before the range.
    fn given_first(&self, lent: &mut [u8]) -> Option<i32> {
        let given = self.given.readings[self.given.search.position as usize];
        match self.does(given, lent) {
            true => Some(given),
            false => search::search(self.faulty, self.translation, self.given, lent),
        }
    }

    /// Each run starts with the cells as they were lent.
    fn restored(&self, lent: &mut [u8]) -> Option<i32> {
        let earlier = lent.to_vec();
        self.values().find(|&value| {
            lent.copy_from_slice(&earlier);
            self.does(value, lent)
        })
    }

    /// The search, which leaves the cells otherwise.
    fn left_otherwise(&self, lent: &mut [u8]) -> Option<i32> {
        let earlier = lent.to_vec();
        let found = search::search(self.faulty, self.translation, self.given, lent);
        let past = |value: i32| self.values().filter(move |&other| other > value);
        match (self.faulty.0, found) {
            (Fault::SearchFoundCellsMissing, Some(value)) => {
                lent.copy_from_slice(&earlier);
                self.values()
                    .take_while(|&other| other < value)
                    .for_each(|other| {
                        self.run(other, lent);
                    });
            }
            (Fault::SearchOneRunMore, Some(value)) => past(value).take(1).for_each(|other| {
                self.run(other, lent);
            }),
            (Fault::SearchAllRun, Some(value)) => past(value).for_each(|other| {
                self.run(other, lent);
            }),
            (Fault::SearchNoneRestored, None) => lent.copy_from_slice(&earlier),
            (Fault::SearchFoundRestored, Some(_)) => lent.copy_from_slice(&earlier),
            _ => {}
        }
        found
    }
}
