//! Random allowances, readings and buffer sizes.

use super::random::Random;
use crate::interface::Allowances;
use crate::model::answer::RECORD;
use crate::model::driver_view::VIEW;
use zifnora::sizes::{CELL_BYTES, MOST_CELLS, MOST_NESTING, MOST_ROWS};

/// Bytes are lent for no more cells than these, whatever is allowed.
pub const CELLS_LENT: usize = 970;

/// Allowances: mostly in range, sometimes at a ceiling or one above.
pub fn allowances(random: &mut Random) -> Allowances {
    let steps = match random.below(20) {
        0 => 0,
        1..=5 => random.below(20),
        6..=12 => random.below(300),
        _ => random.below(2500),
    };
    Allowances {
        steps: steps as u32,
        nesting: nesting(random),
        cells: cells(random),
    }
}

fn nesting(random: &mut Random) -> u32 {
    match random.below(40) {
        0 => 0,
        1 => MOST_NESTING + 1,
        2 => random.bits() as u32,
        3..=6 => MOST_NESTING,
        7 => MOST_NESTING - 1,
        8..=15 => random.between(1, 8) as u32,
        16..=24 => random.between(1, 40) as u32,
        _ => random.between(40, MOST_NESTING as usize) as u32,
    }
}

fn cells(random: &mut Random) -> u32 {
    match random.below(60) {
        0 => MOST_CELLS + 1,
        1 => random.bits() as u32,
        2 => MOST_CELLS,
        3 => MOST_CELLS - 1,
        4..=8 => 0,
        9..=20 => random.below(8) as u32,
        21..=50 => random.below(100) as u32,
        _ => random.below(MOST_CELLS as usize) as u32,
    }
}

/// Bytes lent for cells: mostly just enough or a little more.
pub fn lent(random: &mut Random, cells: u32) -> usize {
    let due = CELL_BYTES * (cells as usize).min(CELLS_LENT);
    match random.below(20) {
        0 => due.saturating_sub(1),
        1 => due.saturating_sub(CELL_BYTES),
        2 => random.below(due + 1),
        3..=6 => due + random.between(1, CELL_BYTES + 9),
        _ => due,
    }
}

/// Size of an output buffer for something of a length.
pub fn room(random: &mut Random, length: usize) -> usize {
    match random.below(16) {
        0 => length.saturating_sub(1),
        1 => length.saturating_sub(2),
        2 => 0,
        3 => random.below(length + 1),
        4..=7 => length,
        8 => length + 1,
        _ => length + random.below(60),
    }
}

/// Size of an output buffer that is longer than something of a length; now and
/// then so long that little is left of its size on 16 bits.
pub fn longer(random: &mut Random, length: usize) -> usize {
    match random.below(200) {
        0 => (1 << 16) + random.below(length + 1),
        1..=60 => length + 1,
        _ => length + random.between(2, 60),
    }
}

/// Size of the buffer for an answer record.
pub fn record(random: &mut Random) -> usize {
    match random.below(24) {
        0 => RECORD - 1,
        1 => random.below(RECORD),
        2..=4 => random.between(RECORD + 1, 2 * RECORD),
        _ => RECORD,
    }
}

/// Size of the output for a driver's view: mostly just enough, sometimes fewer,
/// a little more, or so many that fewer are left on 8 or on 16 bits.
pub fn view(random: &mut Random) -> usize {
    match random.below(24) {
        room @ 0..=8 => room,
        9 => random.between(VIEW + 3, 40),
        10 if random.chance(5) => (1 << random.pick(&[8, 16])) + random.below(VIEW),
        _ => VIEW,
    }
}

/// Readings: mostly as many as due, sometimes one off.
pub fn readings(random: &mut Random, due: usize) -> Vec<i32> {
    let count = match random.below(30) {
        0 => due + 1,
        1 => due.saturating_sub(1),
        2 => random.below(40),
        3 if random.below(60) == 0 => due + 65_536,
        _ => due,
    };
    (0..count).map(|_| random.number()).collect()
}

/// Rows of a batch: mostly few, sometimes none, as many as may be, or more.
pub fn rows(random: &mut Random) -> u32 {
    match random.below(20) {
        0 => 0,
        1 => MOST_ROWS,
        2 => MOST_ROWS + 1,
        3 => many_rows(random),
        4 | 5 => 1,
        6 | 7 => random.between(5, 15) as u32,
        _ => random.between(2, 4) as u32,
    }
}

/// More rows than can have readings; many of these counts, times the readings
/// of a row, are few on 32 or on 16 bits.
fn many_rows(random: &mut Random) -> u32 {
    let few = random.below(5) as u32;
    match random.below(8) {
        0 => u32::MAX - few,
        1 => random.bits() as u32,
        2 => 65_536 + few,
        _ => (1 << random.between(27, 31)) + few,
    }
}

/// Readings of a batch, `due` for each row: mostly as many as due, sometimes
/// one off, a row off, or as many as due for no more rows than may be.
pub fn row_readings(random: &mut Random, rows: u32, due: usize) -> Vec<i32> {
    let all = match rows as usize * due {
        // More than can be given; what is left of their count on fewer bits.
        all @ 1000.. => random.pick(&[all as u32 as usize, all as u16 as usize]),
        all => all,
    };
    let count = match random.below(24) {
        0 => all + 1,
        1 => all.saturating_sub(1),
        2 => all + due,
        3 => all.saturating_sub(due),
        4 => rows.min(MOST_ROWS) as usize * due,
        5 => due,
        _ => all,
    };
    (0..count.min(1000)).map(|_| random.number()).collect()
}
