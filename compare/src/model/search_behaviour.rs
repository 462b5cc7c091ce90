//! The steps of a search that can be exchanged, beside those of its runs.

use super::answer::Answer;
use super::behaviour::{Behaviour, Correct};
use super::search::{self, Given};
use super::translation::Translation;
use super::Refusal;
use crate::interface::Search;

pub trait SearchBehaviour: Behaviour {
    fn find_reading(
        &self,
        file: &[u8],
        given: Given,
        lent: &mut [u8],
    ) -> Result<Option<i32>, Refusal> {
        search::find_reading(self, file, given, lent)
    }

    fn accept_search(
        &self,
        file: &[u8],
        given: Given,
        lent: usize,
    ) -> Result<Translation, Refusal> {
        search::accept(self, file, given, lent)
    }

    /// A translation has so many readings.
    fn bad_range(&self, search: Search, readings: u16) -> bool {
        search::bad_range(search, readings)
    }

    fn search(&self, translation: &Translation, given: Given, lent: &mut [u8]) -> Option<i32> {
        search::search(self, translation, given, lent)
    }

    /// The values in the order in which they are tried.
    fn values(&self, search: Search) -> Vec<i32> {
        search::values(search)
    }

    /// The run with the next value after those that answered so.
    fn run_with(
        &self,
        translation: &Translation,
        given: Given,
        value: i32,
        _before: &[Answer],
        lent: &mut [u8],
    ) -> Answer {
        search::run_with(self, translation, given, value, lent)
    }

    fn does(&self, answer: &Answer, wanted: i32) -> bool {
        search::does(answer, wanted)
    }

    fn found_code(&self, found: Result<Option<i32>, Refusal>) -> u64 {
        search::code(found)
    }
}

impl SearchBehaviour for Correct {}
