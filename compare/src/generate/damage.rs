//! Damage to files: bytes changed, cut, grown, records exchanged, fields set
//! to neighbouring or marginal values.

use super::random::Random;
use zifnora::build_sheet::put_record;
use zifnora::kinds::{sheet, translation};

/// Length of a head's record.
pub const HEAD_BYTES: usize = 12;

/// Start and length of each whole record, walking by lengths.
pub fn records(file: &[u8]) -> Vec<(usize, usize)> {
    let mut found = Vec::new();
    let mut at = 0;
    while at + 4 <= file.len() {
        let length = u16::from_le_bytes([file[at], file[at + 1]]) as usize;
        if length < 4 || at + length > file.len() {
            break;
        }
        found.push((at, length));
        at += length;
    }
    found
}

/// Damages a file once, sometimes twice or three times.
pub fn damage(random: &mut Random, file: &mut Vec<u8>) {
    let times = random.pick(&[1, 1, 1, 1, 1, 2, 2, 3]);
    for _ in 0..times {
        damage_once(random, file);
    }
}

fn damage_once(random: &mut Random, file: &mut Vec<u8>) {
    let records = records(file);
    if records.is_empty() || file.is_empty() {
        let more = random.below(20);
        file.extend(random.bytes(more));
        return;
    }
    let chosen = records[pick_record(random, records.len())];
    match random.below(26) {
        0 => {
            let at = random.below(file.len());
            file[at] = random.bits() as u8;
        }
        1 => {
            let at = random.below(file.len());
            file[at] ^= 1 << random.below(8);
        }
        2 => file.truncate(random.below(file.len())),
        3 => file.truncate(chosen.0),
        4 => file.truncate(file.len() - random.between(1, file.len().min(9))),
        5 | 6 => {
            let count = random.between(1, 9);
            file.extend(random.bytes(count));
        }
        way => damage_record(random, file, &records, chosen, way),
    }
}

/// Damage to one record or to the order of records.
fn damage_record(
    random: &mut Random,
    file: &mut Vec<u8>,
    records: &[(usize, usize)],
    chosen: (usize, usize),
    way: usize,
) {
    let (at, end) = (chosen.0, chosen.0 + chosen.1);
    match way {
        7 => file.extend_from_within(at..end),
        8 | 9 => exchange(random, file, records, chosen),
        10 => drop(file.drain(at..end)),
        11 => {
            let copy = file[at..end].to_vec();
            file.splice(at..at, copy);
        }
        12 => lengthen(random, file, chosen),
        13 => add_node(file, records),
        14 | 15 => {
            // Several fields of one record.
            for _ in 0..random.between(2, 4) {
                field(random, file, chosen);
            }
        }
        16 => swap_fields(random, file, chosen),
        17 => field(random, file, records[0]),
        18 => {
            // The neighbouring kind, by its lowest bit, or by the bit that a
            // typed record's kind has more.
            let kind = get(file, at + 2);
            set(file, at + 2, kind ^ random.pick(&[1, 4]));
        }
        _ => field(random, file, chosen),
    }
}

/// Early records (head, constructors, functions) more often than nodes.
fn pick_record(random: &mut Random, count: usize) -> usize {
    if random.chance(25) {
        random.below(count.min(8))
    } else {
        random.below(count)
    }
}

pub(super) fn get(file: &[u8], at: usize) -> u16 {
    u16::from_le_bytes([file[at], file[at + 1]])
}

pub(super) fn set(file: &mut [u8], at: usize, value: u16) {
    file[at..at + 2].copy_from_slice(&value.to_le_bytes());
}

/// Sets one field of a record, now and then its length or kind.
fn field(random: &mut Random, file: &mut [u8], record: (usize, usize)) {
    let pairs = record.1 / 2;
    let low = if random.chance(12) || pairs <= 2 {
        0
    } else {
        2
    };
    let at = record.0 + 2 * random.between(low, pairs - 1);
    let old = get(file, at);
    let value = match random.below(12) {
        0..=2 => old.wrapping_add(1),
        3..=5 => old.wrapping_sub(1),
        6 => random.pick(&[0, 1, 5, 6, 7, 8, 9, 31, 32, 33, 63, 64, 65, 511, 512, 513]),
        7 => random.pick(&[1023, 1024, 1025, 32_767, 32_768, 65_535]),
        8 | 9 => random.below(old as usize + 8) as u16,
        10 => random.bits() as u16,
        _ => random.below(12) as u16,
    };
    set(file, at, value);
}

fn swap_fields(random: &mut Random, file: &mut [u8], record: (usize, usize)) {
    let pairs = record.1 / 2;
    if pairs > 3 {
        let one = record.0 + 2 * random.between(2, pairs - 1);
        let two = record.0 + 2 * random.between(2, pairs - 1);
        let (first, second) = (get(file, one), get(file, two));
        set(file, one, second);
        set(file, two, first);
    }
}

/// Exchanges two records, often neighbours.
fn exchange(
    random: &mut Random,
    file: &mut Vec<u8>,
    records: &[(usize, usize)],
    chosen: (usize, usize),
) {
    let near = records
        .iter()
        .position(|record| *record == chosen)
        .unwrap_or(0)
        + 1;
    let other = if random.chance(60) && near < records.len() {
        records[near]
    } else {
        records[random.below(records.len())]
    };
    let (first, second) = if chosen.0 < other.0 {
        (chosen, other)
    } else {
        (other, chosen)
    };
    if first.0 == second.0 {
        return;
    }
    let mut changed = file[..first.0].to_vec();
    changed.extend_from_slice(&file[second.0..second.0 + second.1]);
    changed.extend_from_slice(&file[first.0 + first.1..second.0]);
    changed.extend_from_slice(&file[first.0..first.0 + first.1]);
    changed.extend_from_slice(&file[second.0 + second.1..]);
    *file = changed;
}

/// Makes one record longer or shorter by whole fields, its length kept true.
fn lengthen(random: &mut Random, file: &mut Vec<u8>, record: (usize, usize)) {
    let pairs = random.pick(&[1, 2, 2, 4]);
    if random.chance(50) {
        let extra: Vec<u8> = (0..pairs)
            .flat_map(|_| [random.below(9) as u8, 0])
            .collect();
        let end = record.0 + record.1;
        file.splice(end..end, extra);
        set(file, record.0, (record.1 + 2 * pairs) as u16);
    } else if record.1 >= 6 + 2 * pairs {
        let end = record.0 + record.1;
        file.drain(end - 2 * pairs..end);
        set(file, record.0, (record.1 - 2 * pairs) as u16);
    }
}

/// Adds a number as the last node, with the counts kept consistent.
fn add_node(file: &mut Vec<u8>, records: &[(usize, usize)]) {
    let kind = get(file, records[0].0 + 2);
    // A sheet's function has its node count second, a translation's first.
    let (functions, number, field) = if kind == sheet::HEAD {
        let functions = [sheet::FUNCTION, sheet::TYPED_FUNCTION];
        (functions, sheet::NUMBER, 6)
    } else {
        ([translation::FUNCTION; 2], translation::NUMBER, 4)
    };
    let last = records
        .iter()
        .rev()
        .find(|record| functions.contains(&get(file, record.0 + 2)));
    let (Some(last), HEAD_BYTES) = (last, records[0].1) else {
        return;
    };
    if last.1 < field + 2 {
        return;
    }
    let count_at = last.0 + field;
    let (total, count) = (get(file, 10), get(file, count_at));
    set(file, 10, total.wrapping_add(1));
    set(file, count_at, count.wrapping_add(1));
    put_record(file, number, &[1, 0]);
}
