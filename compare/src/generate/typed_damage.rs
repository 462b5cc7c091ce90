//! Damage to the typed records of a sheet: one type changed, one record
//! exchanged for that of the other sort, or made longer or shorter.

use super::damage::{get, records, set};
use super::random::Random;
use zifnora::kinds::sheet as kinds;
use zifnora::sizes::{MOST_FIELDS, MOST_TYPES};

/// Fields of a typed record before its types.
fn counts(kind: u16) -> usize {
    match kind {
        kinds::TYPED_CONSTRUCTOR => 1,
        _ => 2,
    }
}

/// Start, length and kind of each record of these kinds.
fn records_of(file: &[u8], due: &[u16]) -> Vec<(usize, usize, u16)> {
    let all = records(file).into_iter();
    let with_kind = all.map(|(at, length)| (at, length, get(file, at + 2)));
    with_kind.filter(|record| due.contains(&record.2)).collect()
}

const TYPED: [u16; 2] = [kinds::TYPED_CONSTRUCTOR, kinds::TYPED_FUNCTION];
const UNTYPED: [u16; 2] = [kinds::CONSTRUCTOR, kinds::FUNCTION];

/// The places of all types.
fn places(file: &[u8]) -> Vec<usize> {
    let place = |(at, length, kind)| (at + 4 + 2 * counts(kind)..at + length).step_by(2);
    let all = records_of(file, &TYPED).into_iter();
    all.flat_map(place).collect()
}

/// Changes one type of a typed sheet: to another that it has, to one at an end of
/// the range or past it, or to any.
pub fn change_type(random: &mut Random, file: &mut [u8]) {
    let places = places(file);
    let at = random.pick(&places);
    let other = random.pick(&places);
    let (old, other) = (get(file, at), get(file, other));
    let greatest = MOST_TYPES as u16;
    let value = match random.below(20) {
        0..=8 => other,
        9..=11 => 0,
        12 | 13 => random.pick(&[1, greatest]),
        14 => greatest + 1,
        15 => old ^ 1 << random.below(16),
        16 => old.swap_bytes(),
        17 => random.bits() as u16,
        _ => random.between(0, MOST_TYPES) as u16,
    };
    set(file, at, value);
}

/// Removes the types of one record, or gives types to one.
pub fn mix(random: &mut Random, file: &mut Vec<u8>) {
    let all = records_of(file, &[TYPED, UNTYPED].concat());
    let (at, _, kind) = random.pick(&all);
    let (other, fields) = match kind {
        kinds::CONSTRUCTOR => (kinds::TYPED_CONSTRUCTOR, 2 + get(file, at + 4)),
        kinds::FUNCTION => (kinds::TYPED_FUNCTION, 3 + get(file, at + 4)),
        kinds::TYPED_CONSTRUCTOR => (kinds::CONSTRUCTOR, 1),
        _ => (kinds::FUNCTION, 2),
    };
    set(file, at + 2, other);
    resize(random, file, at, fields as usize);
}

/// Gives one typed record another number of fields, about all that it can have,
/// and often a count that goes with them; now and then it ends inside a field.
pub fn relength(random: &mut Random, file: &mut Vec<u8>) {
    let all = records_of(file, &TYPED);
    let (at, length, kind) = random.pick(&all);
    let fields = match random.below(3) {
        0 => length / 2 - 2 + random.pick(&[1, 2]),
        1 => random.pick(&[1, 2, 3]),
        _ => random.between(1, counts(kind) + MOST_FIELDS + 3),
    };
    resize(random, file, at, fields);
    if random.chance(50) {
        set(file, at + 4, fields.saturating_sub(counts(kind) + 1) as u16);
    }
    if random.chance(10) {
        let end = at + 4 + 2 * fields;
        file.insert(end, 0);
        set(file, at, (end + 1 - at) as u16);
    }
}

/// Gives the record at a place so many fields; new ones are small.
fn resize(random: &mut Random, file: &mut Vec<u8>, at: usize, fields: usize) {
    let end = at + get(file, at) as usize;
    let mut bytes = file[at + 4..end].to_vec();
    while bytes.len() < 2 * fields {
        bytes.extend_from_slice(&[random.below(3) as u8, 0]);
    }
    bytes.truncate(2 * fields);
    file.splice(at + 4..end, bytes);
    set(file, at, (4 + 2 * fields) as u16);
}
