//! Random translations, most of them such as no translator writes.

use super::random::Random;
use zifnora::build_sheet::put_record;
use zifnora::kinds::translation as kinds;
use zifnora::sizes::{MOST_FIELDS, TRANSLATION_BYTES};

/// A translation whose records and references are all in range.
pub fn translation(random: &mut Random) -> Vec<u8> {
    let (formals, functions, nodes) = match random.below(20) {
        0 => (random.between(480, 512), 64, random.between(900, 1024)),
        1 => (random.below(3), 1, random.between(1, 4)),
        2..=4 => (
            random.between(7, 20),
            random.between(3, 5),
            random.between(20, 60),
        ),
        _ => (random.below(8), random.between(1, 5), random.between(5, 50)),
    };
    let readings = if random.chance(10) {
        32
    } else {
        random.below(5)
    };
    let mut actuals = Vec::new();
    for _ in 0..formals {
        let count = if random.chance(2) {
            random.below(30)
        } else {
            random.below(5)
        };
        actuals.push((0..count).map(|_| random.below(nodes) as u16).collect());
    }
    let records: Vec<(u16, Vec<u16>)> = (0..nodes)
        .map(|number| node(random, number, nodes, formals, functions, readings))
        .collect();
    encode(random, readings, functions, &actuals, &records)
}

/// A translation of exactly 40,960 bytes: long actuals fill it up.
pub fn longest(random: &mut Random) -> Vec<u8> {
    let (functions, nodes, formals) = (random.between(4, 64), random.between(64, 1024), 30);
    let records: Vec<(u16, Vec<u16>)> = (0..nodes)
        .map(|number| node(random, number, nodes, formals, functions, 32))
        .collect();
    let used: usize = records.iter().map(|record| 4 + 2 * record.1.len()).sum();
    let mut left = (TRANSLATION_BYTES - 12 - 8 * functions - used - 4 * formals) / 2;
    let mut actuals = Vec::new();
    for _ in 0..formals {
        let count = left.min(1024);
        left -= count;
        actuals.push((0..count).map(|_| random.below(nodes) as u16).collect());
    }
    encode(random, 32, functions, &actuals, &records)
}

fn encode(
    random: &mut Random,
    readings: usize,
    functions: usize,
    actuals: &[Vec<u16>],
    records: &[(u16, Vec<u16>)],
) -> Vec<u8> {
    let functions = functions.min(records.len());
    let mut file = Vec::new();
    let head = [
        readings as u16,
        actuals.len() as u16,
        functions as u16,
        records.len() as u16,
    ];
    put_record(&mut file, kinds::HEAD, &head);
    let mut left = records.len();
    let parameters = parameters(random, functions, actuals.len());
    for (number, parameters) in parameters.into_iter().enumerate() {
        let after = functions - number - 1;
        let count = if after == 0 {
            left
        } else {
            random.between(1, (left - after).min(40))
        };
        left -= count;
        put_record(&mut file, kinds::FUNCTION, &[count as u16, parameters]);
    }
    for list in actuals {
        put_record(&mut file, kinds::FORMAL_LIST, list);
    }
    for (kind, fields) in records {
        put_record(&mut file, *kind, fields);
    }
    file
}

/// Parameter counts of so many functions that sum to the formals, which are no
/// more than all functions can have.
pub fn parameters(random: &mut Random, functions: usize, formals: usize) -> Vec<u16> {
    let mut counts = vec![0; functions];
    // Few functions have formals, or each may have some.
    let mut open: Vec<usize> = (0..functions).collect();
    let spread = random.chance(70);
    let mut at = random.below(functions);
    for _ in 0..formals {
        if spread || counts[at] == MOST_FIELDS as u16 || random.chance(10) {
            at = random.pick(&open);
        }
        counts[at] += 1;
        if counts[at] == MOST_FIELDS as u16 {
            open.retain(|&function| function != at);
        }
    }
    counts
}

fn node(
    random: &mut Random,
    number: usize,
    nodes: usize,
    formals: usize,
    functions: usize,
    readings: usize,
) -> (u16, Vec<u16>) {
    let functions = functions.min(nodes);
    // Mostly smaller nodes, so that many runs end.
    let any = |random: &mut Random| match random.below(10) {
        0..=6 => random.below(number.max(1)) as u16,
        7 | 8 => number.saturating_sub(random.below(6)) as u16,
        _ => random.below(nodes) as u16,
    };
    match random.below(20) {
        0..=2 => {
            let bits = random.number() as u32;
            (kinds::NUMBER, vec![bits as u16, (bits >> 16) as u16])
        }
        3 if readings > 0 => (kinds::READING, vec![random.below(readings) as u16]),
        4..=6 if formals > 0 => (kinds::FORMAL, vec![random.below(formals) as u16]),
        7 | 8 => {
            let index = random.pick(&[0, 1, 1, 1, 2, 2, 3, 4, 9, 65_535]);
            (kinds::SELECT, vec![any(random), index])
        }
        9 | 10 => (
            kinds::OPERATOR,
            vec![random.below(6) as u16, any(random), any(random)],
        ),
        11 => (kinds::IF, vec![any(random), any(random), any(random)]),
        12..=14 => {
            let label = label(random);
            (kinds::CALL, vec![label, random.below(functions) as u16])
        }
        15..=17 => tuple(random, any),
        _ => case(random, any),
    }
}

fn label(random: &mut Random) -> u16 {
    if random.chance(3) {
        random.bits() as u16
    } else {
        random.below(4) as u16
    }
}

fn tag(random: &mut Random) -> u16 {
    match random.below(40) {
        0 => random.bits() as u16,
        1 => 65_535,
        _ => random.below(3) as u16,
    }
}

fn tuple(random: &mut Random, any: impl Fn(&mut Random) -> u16) -> (u16, Vec<u16>) {
    let mut fields = vec![tag(random)];
    let count = if random.chance(10) {
        random.below(9)
    } else {
        random.below(4)
    };
    fields.extend((0..count).map(|_| any(random)));
    (kinds::TUPLE, fields)
}

fn case(random: &mut Random, any: impl Fn(&mut Random) -> u16) -> (u16, Vec<u16>) {
    let mut fields = vec![any(random)];
    let count = if random.chance(2) {
        random.between(1, 64)
    } else {
        random.between(1, 4)
    };
    for _ in 0..count {
        fields.push(tag(random));
        fields.push(any(random));
    }
    (kinds::CASE, fields)
}
