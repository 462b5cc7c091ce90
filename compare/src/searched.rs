//! What a search has to be beside the other side's (document 02, request 12):
//! what single runs of the same side give in turn, from the lowest value on in
//! the same cells; and the value found gives the wanted number by call by name.

use crate::call::{inner, After, Call, RunInput};
use crate::interface::{found, shown, Interface, Search};
use crate::model::answer::{Answer, RECORD};
use crate::model::{Behaviour, Correct};
use crate::own_answer::own;
use zifnora::numbers::{is_refusal, BAD_RANGE, NO_VALUE, NUMBER};
use zifnora::sizes::MOST_VALUES;

/// Searches that were compared with single runs in turn.
#[derive(Clone, Copy, Debug, Default)]
pub struct Searched {
    pub searches: u64,
    /// Those of them that were not refused, and their runs.
    pub tried: u64,
    pub runs: u64,
    /// Runs whose record has the wanted number, but is a stop, a fault or a
    /// constructor.
    pub passed_over: u64,
    /// Searches of as many values as may be.
    pub most: u64,
    /// Values found: all, those at the lowest, and those at the highest.
    pub found: [u64; 3],
    /// Values found that call by name confirms.
    pub by_name: u64,
}

impl Searched {
    pub fn add(&mut self, more: Searched) {
        self.searches += more.searches;
        self.tried += more.tried;
        self.runs += more.runs;
        self.passed_over += more.passed_over;
        self.most += more.most;
        for (all, more) in self.found.iter_mut().zip(more.found) {
            *all += more;
        }
        self.by_name += more.by_name;
    }
}

/// A search's parts.
struct Turns<'a> {
    on: &'a dyn Interface,
    file: &'a [u8],
    search: Search,
    input: &'a RunInput,
}

impl Turns<'_> {
    /// A single run on these readings.
    fn run(&self, readings: &[i32], cells: &mut [u8]) -> Answer {
        let mut record = [0; RECORD];
        let allowances = self.input.allowances;
        self.on
            .run(self.file, readings, allowances, cells, &mut record);
        Answer::from_record(&record).unwrap_or_default()
    }

    /// The refusal that is due: that of the run on the readings as they are
    /// lent, then 23.
    fn refused(&self) -> Option<u64> {
        let readings = &self.input.readings;
        let answer = self.run(readings, &mut self.input.cells.clone());
        if is_refusal(answer.outcome) {
            return Some(code(answer.outcome, answer.value));
        }
        let [lowest, highest] = [self.search.lowest, self.search.highest].map(i64::from);
        let right = (lowest..lowest + MOST_VALUES as i64).contains(&highest);
        let placed = (self.search.position as usize) < readings.len();
        (!right || !placed).then(|| code(BAD_RANGE, 0))
    }

    /// The code that is due, with the cells as the runs leave them.
    fn in_turn(&self, cells: &mut [u8], counted: &mut Searched) -> u64 {
        counted.searches += 1;
        if let Some(refused) = self.refused() {
            return refused;
        }
        let Search {
            position,
            lowest,
            highest,
            wanted,
        } = self.search;
        counted.tried += 1;
        counted.most += (highest as i64 - lowest as i64 + 1 == MOST_VALUES as i64) as u64;
        let mut readings = self.input.readings.clone();
        for value in lowest..=highest {
            readings[position as usize] = value;
            let answer = self.run(&readings, cells);
            counted.runs += 1;
            match answer.outcome {
                NUMBER if answer.value == wanted => {
                    let edges = [true, value == lowest, value == highest];
                    counted.found = edges.map(u64::from);
                    return code(NUMBER, value);
                }
                NUMBER => {}
                _ => counted.passed_over += (answer.value == wanted) as u64,
            }
        }
        code(NO_VALUE, 0)
    }
}

fn code(number: u16, low: i32) -> u64 {
    (number as u64) << 32 | low as u32 as u64
}

/// The single runs that a search was compared with, or what differs.
pub fn by_single_runs(call: &Call, after: &After, on: &dyn Interface) -> Result<Searched, String> {
    let mut counted = Searched::default();
    let Call::Search {
        file,
        search,
        input,
        ..
    } = call
    else {
        return Ok(counted);
    };
    let turns = Turns {
        on,
        file,
        search: *search,
        input,
    };
    let mut cells = input.cells.clone();
    let due = turns.in_turn(&mut cells, &mut counted);
    if due != after.code {
        let [due, answered] = [due, after.code].map(shown);
        return Err(format!("single runs in turn {due}, the search {answered}"));
    }
    match inner(&after.cells) == cells {
        true => Ok(counted),
        false => Err("cells: not as single runs in turn leave them".to_string()),
    }
}

/// Whether call by name has an answer within its budget with the value found,
/// which is then the wanted number.
pub fn found_by_name(call: &Call, after: &After) -> Result<bool, String> {
    let (
        Call::Search {
            of: Some(of),
            search,
            input,
            ..
        },
        Some(value),
    ) = (call, found(after.code))
    else {
        return Ok(false);
    };
    let sheet = Correct.read_sheet(of);
    let sheet = sheet.map_err(|refusal| format!("search of a refused sheet: {refusal:?}"))?;
    let mut readings = input.readings.clone();
    match readings.get_mut(search.position as usize) {
        Some(reading) => *reading = value,
        None => return Err(format!("{value} found for a reading that is not there")),
    }
    let own = own(&sheet, &readings);
    match own.outcome() {
        Some(outcome) if outcome != (NUMBER, search.wanted) => Err(format!(
            "{value} found, with which call by name gives {own:?}"
        )),
        other => Ok(other.is_some()),
    }
}
