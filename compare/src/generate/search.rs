//! Random ranges, positions and wanted numbers of searches.

use super::random::Random;
use crate::interface::Allowances;
use crate::model::answer::Answer;
use zifnora::numbers::NUMBER;
use zifnora::sizes::{MOST_NESTING, MOST_READINGS, MOST_VALUES};

/// How many values are tried: mostly few, sometimes one, or as many as may be.
pub fn values(random: &mut Random) -> u32 {
    match random.below(250) {
        0 => MOST_VALUES,
        1..=25 => 1,
        26..=45 => random.between(9, 40) as u32,
        _ => random.between(2, 8) as u32,
    }
}

/// The lowest and the highest of so many values: mostly about 0, sometimes at an
/// end of the numbers, or anywhere.
pub fn range(random: &mut Random, values: u32) -> (i32, i32) {
    let above = values as i32 - 1;
    let lowest = match random.below(16) {
        0 => i32::MIN,
        1 => i32::MAX - above,
        2 => (random.bits() as i32).min(i32::MAX - above),
        _ => 6 - random.below(values as usize + 10) as i32,
    };
    (lowest, lowest + above)
}

/// A range that is bad, but for one here and there.
pub fn bad_range(random: &mut Random) -> (i32, i32) {
    let few = random.below(4) as i32;
    let (lowest, highest) = range(random, MOST_VALUES);
    match random.below(10) {
        0 | 1 => (lowest.saturating_sub(1), highest),
        2 => (lowest, highest.saturating_add(1)),
        3 => (few, few - 1),
        4 => (highest, lowest),
        5 => (i32::MIN + few / 2, i32::MAX),
        6 => (i32::MAX, i32::MIN + few),
        // Few on 16 bits, and below 0 on 32.
        7 => (few, few + 65_535 + few),
        8 => (i32::MIN, few - 2),
        _ => (random.number(), random.number()),
    }
}

/// A position among so many readings, mostly that of one that nodes use.
pub fn position(random: &mut Random, used: u32, due: usize) -> u32 {
    let named: Vec<usize> = (0..due.min(MOST_READINGS))
        .filter(|reading| used >> reading & 1 == 1)
        .collect();
    let position = match named.len() {
        0 => random.below(due),
        _ if random.chance(15) => random.below(due),
        _ => random.pick(&named),
    };
    position as u32
}

/// A position at or past the readings; many are inside them on fewer bits.
pub fn bad_position(random: &mut Random, due: usize) -> u32 {
    let (inside, due) = (random.below(due) as u32, due as u32);
    match random.below(8) {
        0..=2 => due,
        3 => due + random.between(1, 3) as u32,
        4 => u32::MAX - inside,
        _ => inside + (1 << random.pick(&[5, 8, 16, 31])),
    }
}

/// Allowances within their ceilings, which stop some runs; few where many values
/// are tried.
pub fn allowances(random: &mut Random, values: u32) -> Allowances {
    let steps = match values {
        0..=40 => random.pick(&[7, 30, 100, 300, 300, 1000]),
        _ => random.pick(&[7, 30, 60, 60]),
    };
    Allowances {
        steps,
        nesting: random.pick(&[4, 20, 100, 100, MOST_NESTING]),
        cells: random.pick(&[0, 1, 4, 20, 20, 100, 100]),
    }
}

/// A value of a range at which a wanted number may be taken.
pub fn inside(random: &mut Random, (lowest, highest): (i32, i32)) -> i32 {
    let values = highest.saturating_sub(lowest).max(0) as usize + 1;
    match random.below(5) {
        0 => lowest,
        1 | 2 => highest,
        _ => lowest.saturating_add(random.below(values) as i32),
    }
}

/// What is wanted where the run with a value inside the range answers so: mostly
/// the number, tag or 0 in its record, sometimes a near miss, 0 or any number.
pub fn wanted(random: &mut Random, answer: Option<Answer>) -> i32 {
    let recorded = answer.map_or(0, |answer| answer.value);
    match random.below(24) {
        0 => 0,
        1 => random.number(),
        2 => recorded ^ 1 << random.below(32),
        3 => recorded ^ 1 << 16,
        4 if answer.is_some_and(|answer| answer.outcome == NUMBER) => recorded.wrapping_sub(1),
        _ => recorded,
    }
}
