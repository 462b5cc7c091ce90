//! Translations whose functions visit formals of any function, more than once,
//! under the cells of their calls.

use super::random::Random;
use super::translation::parameters;
use zifnora::build_sheet::put_record;
use zifnora::kinds::operators::{ADD, SUBTRACT};
use zifnora::kinds::translation as kinds;
use zifnora::sizes::MOST_FIELDS;

type Record = (u16, Vec<u16>);

/// Numbers and tuples of function 0, which most actuals are.
const LEAVES: usize = 8;

pub fn foreign(random: &mut Random) -> Vec<u8> {
    let functions = random.between(2, 4);
    let formals = random.between(2, (MOST_FIELDS * functions).min(14));
    let mut nodes: Vec<Record> = (0..LEAVES).map(|_| leaf(random)).collect();
    let mut counts = Vec::new();
    for function in 0..functions {
        let before = if function == 0 { 0 } else { nodes.len() };
        for _ in 0..random.between(2, 9) {
            let calls = function == 0 || random.chance(15);
            nodes.push(match calls {
                true => call(random, functions),
                false => (kinds::FORMAL, vec![random.below(formals) as u16]),
            });
        }
        let first = if function == 0 { LEAVES } else { before };
        sum(random, &mut nodes, first);
        counts.push((nodes.len() - before) as u16);
    }
    let actuals: Vec<Vec<u16>> = (0..formals).map(|_| list(random, nodes.len())).collect();
    encode(random, &counts, &actuals, &nodes)
}

fn leaf(random: &mut Random) -> Record {
    match random.below(5) {
        0 => (kinds::TUPLE, vec![random.below(2) as u16, 0, 1]),
        _ => (kinds::NUMBER, vec![random.below(9) as u16, 0]),
    }
}

/// A call of a function that visits formals.
fn call(random: &mut Random, functions: usize) -> Record {
    let function = random.between(1, functions - 1);
    (kinds::CALL, vec![random.below(2) as u16, function as u16])
}

/// Adds up the nodes from one on, or selects from some of them.
fn sum(random: &mut Random, nodes: &mut Vec<Record>, first: usize) {
    let parts = first as u16..nodes.len() as u16;
    let mut sum = parts.start;
    for part in parts.skip(1) {
        nodes.push(match random.below(12) {
            0 => (kinds::SELECT, vec![part, random.below(3) as u16]),
            1 => (kinds::IF, vec![part, sum, part]),
            2 => (kinds::OPERATOR, vec![SUBTRACT, part, sum]),
            _ => (kinds::OPERATOR, vec![ADD, sum, part]),
        });
        sum = nodes.len() as u16 - 1;
    }
}

/// The actuals of a formal, one for each label.
fn list(random: &mut Random, nodes: usize) -> Vec<u16> {
    let actual = |random: &mut Random| match random.below(8) {
        0 => random.below(nodes) as u16,
        _ => random.below(LEAVES) as u16,
    };
    vec![actual(random), actual(random)]
}

fn encode(random: &mut Random, counts: &[u16], actuals: &[Vec<u16>], nodes: &[Record]) -> Vec<u8> {
    let [formals, functions, all] = [actuals.len(), counts.len(), nodes.len()];
    let mut file = Vec::new();
    let head = [0, formals, functions, all].map(|count| count as u16);
    put_record(&mut file, kinds::HEAD, &head);
    for (&count, parameters) in counts.iter().zip(parameters(random, functions, formals)) {
        put_record(&mut file, kinds::FUNCTION, &[count, parameters]);
    }
    for list in actuals {
        put_record(&mut file, kinds::FORMAL_LIST, list);
    }
    for (kind, fields) in nodes {
        put_record(&mut file, *kind, fields);
    }
    file
}
