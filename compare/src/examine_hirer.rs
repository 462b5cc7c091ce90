//! Chooses the hirer's runs with which a translation is examined.

use crate::call::{Call, RunInput};
use crate::check::Difference;
use crate::examine::{run_input, Examiner};
use crate::generate::damage::{records, HEAD_BYTES};
use crate::generate::random::Random;
use crate::interface::Allowances;
use crate::model::answer::RECORD;
use crate::model::records::two_bytes;
use zifnora::kinds::translation::READING;
use zifnora::sizes::{CELL_BYTES, MOST_NESTING, MOST_READINGS};

impl Examiner<'_> {
    /// A hirer's run in which anything may be wrong; one in which nothing is
    /// but the file and the set; and one in which the set is right too.
    pub(crate) fn hired(
        &mut self,
        random: &mut Random,
        file: &[u8],
        of: Option<&[u8]>,
        due: usize,
    ) -> Result<(), Difference> {
        let used = used(file);
        let (set, input) = (any_set(random, used, due), run_input(random, due));
        self.hirer(random, (file.to_vec(), of), set, input)?;
        let (set, input) = (any_set(random, used, due), right_input(random, due));
        self.hirer(random, (file.to_vec(), of), set, input)?;
        let (file, due) = asking(random, file, due);
        let (set, input) = (covering(random, used, due), right_input(random, due));
        self.hirer(random, (file, of), set, input)
    }

    fn hirer(
        &mut self,
        random: &mut Random,
        (file, of): (Vec<u8>, Option<&[u8]>),
        set: u32,
        input: RunInput,
    ) -> Result<(), Difference> {
        let other = others(random, set, &input.readings);
        self.check(&Call::Hirer {
            of: of.map(<[u8]>::to_vec),
            file,
            set,
            input,
            other,
        })?;
        Ok(())
    }
}

/// The readings that nodes of a translation name.
pub(crate) fn used(file: &[u8]) -> u32 {
    let bit = |&(at, length): &(usize, usize)| match two_bytes(file, at + 2) {
        READING if length >= 6 => 1_u32.checked_shl(two_bytes(file, at + 4) as u32),
        _ => None,
    };
    records(file)
        .iter()
        .filter_map(bit)
        .fold(0, |set, bit| set | bit)
}

/// The bits of a set that say nothing where so many readings are due.
fn past(due: usize) -> u32 {
    u32::MAX.checked_shl(due as u32).unwrap_or(0)
}

/// Any set, mostly near to the readings that are used.
fn any_set(random: &mut Random, used: u32, due: usize) -> u32 {
    let any = random.bits() as u32;
    let covering = covering(random, used, due);
    match random.below(10) {
        0 => 0,
        1 => past(due),
        2 => any,
        3 => any & !past(due),
        4..=6 => without_one(random, covering, used),
        _ => covering,
    }
}

/// A set with the readings that are used: all, no others, or some others.
fn covering(random: &mut Random, used: u32, due: usize) -> u32 {
    let any = random.bits() as u32;
    match random.below(8) {
        0 => u32::MAX,
        1 => !past(due),
        2 => used | any,
        3 => used | any & !past(due),
        4 | 5 => used | past(due),
        _ => used,
    }
}

fn has(set: u32, reading: usize) -> bool {
    set.checked_shr(reading as u32).unwrap_or(0) % 2 == 1
}

/// The set less one of the readings that are used.
fn without_one(random: &mut Random, set: u32, used: u32) -> u32 {
    let readings: Vec<usize> = (0..MOST_READINGS)
        .filter(|&reading| has(used, reading))
        .collect();
    match readings.len() {
        0 => set,
        _ => set & !(1 << random.pick(&readings)),
    }
}

/// Other numbers for the readings that are not in the set.
fn others(random: &mut Random, set: u32, readings: &[i32]) -> Vec<i32> {
    let other = |(number, &reading): (usize, &i32)| match has(set, number) {
        true => reading,
        false => another(random, reading),
    };
    readings.iter().enumerate().map(other).collect()
}

fn another(random: &mut Random, reading: i32) -> i32 {
    match random.number() {
        same if same == reading => same ^ 1,
        other => other,
    }
}

/// The file, often with more readings asked for than its nodes use.
fn asking(random: &mut Random, file: &[u8], due: usize) -> (Vec<u8>, usize) {
    let mut file = file.to_vec();
    if file.len() < HEAD_BYTES || due >= MOST_READINGS || random.chance(30) {
        return (file, due);
    }
    let more = match random.below(8) {
        0 => MOST_READINGS,
        _ => random.between(due, MOST_READINGS.min(due + 3)),
    };
    file[4..6].copy_from_slice(&(more as u16).to_le_bytes());
    (file, more)
}

/// Right readings and allowances, now and then few.
fn right_input(random: &mut Random, due: usize) -> RunInput {
    let allowances = Allowances {
        steps: random.pick(&[30, 100, 300, 300]),
        nesting: random.pick(&[20, 100, MOST_NESTING]),
        cells: random.pick(&[1, 10, 100]),
    };
    let readings = (0..due).map(|_| random.number()).collect();
    let spare = random.below(9);
    RunInput {
        readings,
        allowances,
        cells: random.bytes(CELL_BYTES * allowances.cells as usize + spare),
        record: random.bytes(RECORD + spare),
    }
}
