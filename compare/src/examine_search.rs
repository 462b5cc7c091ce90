//! Chooses the searches with which translations are examined.

use crate::call::{Call, RunInput};
use crate::check::Difference;
use crate::examine::{readings_due, run_input, Examiner};
use crate::examine_hirer::used;
use crate::generate::case::translated;
use crate::generate::random::Random;
use crate::generate::{search, search_sheet, sheet};
use crate::interface::{Allowances, Search};
use crate::model::answer::Answer;
use crate::model::{translation, Behaviour, Correct};
use zifnora::numbers::NUMBER;
use zifnora::sizes::CELL_BYTES;

/// A translation, and the sheet that it is the translation of.
type File<'a> = (&'a [u8], Option<&'a [u8]>);

impl Examiner<'_> {
    /// Searches in some of the translations that were run, and often in that of a
    /// sheet whose answer goes by one reading.
    pub fn searches(&mut self, random: &mut Random) -> Result<(), Difference> {
        for (file, of) in std::mem::take(&mut self.translations) {
            let due = readings_due(&file);
            let percent = if due == 0 { 5 } else { 40 };
            if random.chance(percent) {
                let position = search::position(random, used(&file), due);
                self.search(random, (&file, of.as_deref()), position)?;
            }
        }
        if random.chance(60) {
            let (program, position) = search_sheet::by_one_reading(random);
            let of = sheet::encode(random, &program);
            self.search(random, (&translated(&of), Some(&of)), position)?;
        }
        Ok(())
    }

    /// A search in which anything may be wrong, mostly the range or the position,
    /// and one in which nothing is but the file.
    fn search(&mut self, random: &mut Random, file: File, position: u32) -> Result<(), Difference> {
        let due = readings_due(file.0);
        let any = run_input(random, due);
        let (range, anywhere) = match random.below(8) {
            0..=3 => (search::bad_range(random), position),
            4 | 5 => (few_values(random), search::bad_position(random, due)),
            _ => (few_values(random), position),
        };
        self.searched(random, file, anywhere, range, any)?;
        let values = search::values(random);
        let range = search::range(random, values);
        let allowances = search::allowances(random, values);
        let right = right_input(random, due, allowances);
        self.searched(random, file, position, range, right)
    }

    fn searched(
        &mut self,
        random: &mut Random,
        (file, of): File,
        position: u32,
        range: (i32, i32),
        input: RunInput,
    ) -> Result<(), Difference> {
        // Mostly that of a run that ends with a number.
        let mut answer = None;
        for _ in 0..random.between(1, 4) {
            let value = search::inside(random, range);
            answer = answer_with(file, position, value, &input);
            if answer.is_none_or(|answer| answer.outcome == NUMBER) {
                break;
            }
        }
        let search = Search {
            position,
            lowest: range.0,
            highest: range.1,
            wanted: search::wanted(random, answer),
        };
        self.check(&Call::Search {
            of: of.map(<[u8]>::to_vec),
            file: file.to_vec(),
            search,
            input: RunInput {
                record: vec![],
                ..input
            },
        })?;
        Ok(())
    }
}

fn few_values(random: &mut Random) -> (i32, i32) {
    let values = random.between(1, 3) as u32;
    search::range(random, values)
}

/// Right readings and lent cells.
fn right_input(random: &mut Random, due: usize, allowances: Allowances) -> RunInput {
    let spare = random.below(9);
    RunInput {
        readings: (0..due).map(|_| random.number()).collect(),
        allowances,
        cells: random.bytes(CELL_BYTES * allowances.cells as usize + spare),
        record: vec![],
    }
}

/// The model's answer with this value for the reading, if the file is accepted
/// and has that reading.
fn answer_with(file: &[u8], position: u32, value: i32, input: &RunInput) -> Option<Answer> {
    let read = translation::read(&Correct, file).ok()?;
    let mut readings = input.readings.clone();
    *readings.get_mut(position as usize)? = value;
    let right = readings.len() == read.readings as usize;
    right.then(|| Correct.run_accepted(&read, &readings, input.allowances, &mut []))
}
