//! Answer records: of any outcome and value, near misses of a record, and
//! damaged ones.

use super::random::Random;
use crate::model::answer::{Answer, RECORD};
use zifnora::numbers::{CONSTRUCTOR, NO_VALUE, NUMBER, TRUNCATED};

/// An answer that need not be one of any run.
pub fn any(random: &mut Random) -> Answer {
    Answer {
        outcome: outcome(random),
        value: random.number(),
        steps: random.number() as u32,
        node: random.bits() as u16,
        context: random.bits() as u16,
        cells: random.bits() as u16,
    }
}

/// A number of the table, or near to one, or any; often that of a number.
fn outcome(random: &mut Random) -> u16 {
    let known = random.between(TRUNCATED as usize, NO_VALUE as usize) as u16;
    match random.below(16) {
        0..=5 => NUMBER,
        6 | 7 => CONSTRUCTOR,
        8..=10 => known,
        11 => known.swap_bytes(),
        12 => CONSTRUCTOR.swap_bytes(),
        13 => random.pick(&[25, 99, 101, 255, 256, 0x7FFF, 0x8000, u16::MAX]),
        14 => (random.bits() as u16) << 8,
        _ => random.bits() as u16,
    }
}

/// An answer that has the outcome or the value or both of another, or is one
/// bit off.
pub fn near(random: &mut Random, answer: &Answer) -> Answer {
    let other = any(random);
    match random.below(8) {
        0..=2 => Answer {
            outcome: answer.outcome,
            value: answer.value,
            ..other
        },
        3 => Answer {
            outcome: other.outcome,
            ..*answer
        },
        4 => Answer {
            outcome: answer.outcome ^ 1 << random.below(16),
            ..*answer
        },
        5 => Answer {
            value: other.value,
            ..*answer
        },
        6 => Answer {
            value: answer.value ^ 1 << random.below(32),
            ..*answer
        },
        _ => other,
    }
}

/// Bytes that are no answer record.
pub fn damaged(random: &mut Random, answer: &Answer) -> Vec<u8> {
    let mut bytes = answer.record().to_vec();
    match random.below(14) {
        0 => bytes.truncate(RECORD - 1),
        1 => bytes.truncate(random.below(RECORD)),
        2 => bytes.push(random.bits() as u8),
        3 => bytes.extend_from_slice(&answer.record()),
        4 => {
            let more = random.between(1, 60);
            bytes.extend(random.bytes(more));
        }
        5 => resize_whole(random, &mut bytes),
        // As many as a record has, on 16 bits.
        6 if random.chance(5) => bytes.resize(RECORD + (1 << 16), 0),
        way @ 7..=10 => bytes[way - 7] ^= random.between(1, 255) as u8,
        11 => bytes.swap(0, 1),
        12 => bytes.swap(2, 3),
        13 => bytes = random.bytes(RECORD),
        _ => {
            let length = random.below(3 * RECORD);
            bytes = random.bytes(length);
        }
    }
    bytes
}

/// Another length, which the length field has too.
fn resize_whole(random: &mut Random, bytes: &mut Vec<u8>) {
    let length = match random.below(4) {
        0 => random.between(4, RECORD - 1),
        1 => RECORD - 1,
        2 => RECORD + 1,
        _ => 2 * RECORD,
    };
    bytes.resize(length, 0);
    bytes[0] = length as u8;
}
