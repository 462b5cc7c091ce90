//! Sheets at the ceilings of document 01.

use super::expr::Grow;
use super::plan::{plan, Limits, Plan};
use super::random::Random;
use super::repeat::Earlier;
use super::sheet::encode;
use zifnora::build_sheet::{build, call, number, operator, put_record, Expr, Program};
use zifnora::kinds::sheet as kinds;
use zifnora::sizes::{MOST_CONSTRUCTORS, MOST_FIELDS, MOST_FUNCTIONS, MOST_NODES, MOST_READINGS};

/// A well-formed sheet with 32 readings, 64 constructors, 64 functions of 8
/// parameters, a case of up to 64 clauses and exactly 1,024 nodes.
pub fn greatest(random: &mut Random) -> Vec<u8> {
    let limits = Limits {
        readings: (MOST_READINGS, MOST_READINGS),
        constructors: (MOST_CONSTRUCTORS, MOST_CONSTRUCTORS),
        functions: (MOST_FUNCTIONS, MOST_FUNCTIONS),
        parameters: (MOST_FIELDS, MOST_FIELDS),
        arity: (0, MOST_FIELDS),
    };
    let plan = plan(random, &limits, false);
    let arities: Vec<u16> = plan
        .constructors
        .iter()
        .map(|constructor| constructor.fields.len() as u16)
        .collect();
    let last = MOST_FUNCTIONS - 1;
    let wide = random.below(last);
    let mut left = MOST_NODES;
    let mut earlier = Earlier::default();
    let mut functions = Vec::new();
    for function in 0..last {
        let body = body(random, (&plan, &mut earlier), function, wide, left);
        left -= body.size();
        functions.push((plan.functions[function].parameters.len() as u16, body));
    }
    // The last function takes the nodes that are left.
    let single = arities
        .iter()
        .position(|&arity| arity == 1)
        .map(|number| number as u16);
    functions.push((MOST_FIELDS as u16, exact(random, left, single)));
    encode(
        random,
        &Program {
            readings: MOST_READINGS as u16,
            arities,
            functions,
        },
    )
}

/// A body that keeps nodes for the wide case and the functions still to
/// come, of those left.
fn body(
    random: &mut Random,
    (plan, earlier): (&Plan, &mut Earlier),
    function: usize,
    wide: usize,
    left: usize,
) -> Expr {
    let spend = random.between(1, 14) as i32;
    let mut grow = Grow::new(random, plan, earlier, function, spend);
    if function == wide {
        return wide_case(&mut grow);
    }
    let body = grow.body();
    let coming = MOST_FUNCTIONS - function;
    let spare = left.saturating_sub(80 + coming);
    if body.size() > 2 * spare / coming {
        number(function as i32)
    } else {
        body
    }
}

/// A case with a clause for (almost) every constructor.
fn wide_case(grow: &mut Grow) -> Expr {
    let scrutinee = build_any(grow);
    let mut clauses = Vec::new();
    for constructor in 0..MOST_CONSTRUCTORS {
        let arity = grow.plan.constructors[constructor].fields.len();
        let position = grow.random.below(1 + arity);
        let node = match position < arity {
            true => Expr::Pattern(position as u16),
            false => number(constructor as i32),
        };
        clauses.push((constructor as u16, node));
    }
    if grow.random.chance(30) {
        clauses.remove(grow.random.below(MOST_CONSTRUCTORS));
    }
    Expr::Case(Box::new(scrutinee), clauses)
}

fn build_any(grow: &mut Grow) -> Expr {
    let constructor = grow.random.below(MOST_CONSTRUCTORS);
    let arity = grow.plan.constructors[constructor].fields.len();
    build(
        constructor as u16,
        (0..arity).map(|_| number(grow.random.number())).collect(),
    )
}

/// Nodes of a call with the most arguments, each of one node.
const CALL_NODES: usize = 1 + MOST_FIELDS;

/// An expression of exactly `size` nodes; `single` is a constructor of arity
/// 1. Without one a size of 2 comes out as 1.
fn exact(random: &mut Random, size: usize, single: Option<u16>) -> Expr {
    match (size, single) {
        (2, Some(single)) => build(single, vec![number(random.number())]),
        (0..=2, _) => number(random.number()),
        (CALL_NODES, _) => {
            // One of few, so that some are equal.
            let argument = number(random.below(2) as i32);
            call(random.between(1, 3) as u16, vec![argument; MOST_FIELDS])
        }
        _ => {
            let left = match size {
                20.. if random.chance(30) => CALL_NODES,
                _ => random.between(1, size - 2),
            };
            let code = random.below(6) as u16;
            let low = exact(random, left, single);
            let high = exact(random, size - 1 - left, single);
            operator(code, low, high)
        }
    }
}

/// A file of exactly `target` bytes (even, above 2,000) whose records are all
/// fine but whose nodes are mostly wide cases. No sheet so long keeps the
/// child rules; `wild` lets references leave their ranges too.
pub fn long(random: &mut Random, target: usize, wild: bool) -> Vec<u8> {
    let constructors = random.between(MOST_CONSTRUCTORS - 4, MOST_CONSTRUCTORS);
    let functions = random.between(1, MOST_FUNCTIONS);
    let lengths = lengths(random, target - 12 - 6 * constructors - 8 * functions);
    if lengths.len() < functions {
        return long(random, target, wild);
    }
    let nodes = lengths.len();
    let mut file = Vec::new();
    let head = [MOST_READINGS, constructors, functions, nodes].map(|count| count as u16);
    put_record(&mut file, kinds::HEAD, &head);
    for _ in 0..constructors {
        put_record(
            &mut file,
            kinds::CONSTRUCTOR,
            &[random.below(MOST_FIELDS + 1) as u16],
        );
    }
    for number in 0..functions {
        let count = if number == 0 {
            nodes - functions + 1
        } else {
            1
        };
        put_record(&mut file, kinds::FUNCTION, &[0, count as u16]);
    }
    for (number, &length) in lengths.iter().enumerate() {
        let far = wild && random.chance(1);
        let bound = if far { 2000 } else { number.max(1) };
        long_node(random, &mut file, length, bound, constructors);
    }
    file
}

/// Lengths of node records that fill so many bytes.
fn lengths(random: &mut Random, bytes: usize) -> Vec<usize> {
    let mut left = bytes;
    let mut lengths = Vec::new();
    while left > 300 {
        lengths.push(10 + 4 * random.between(50, 63));
        left -= lengths[lengths.len() - 1];
    }
    while left > 0 {
        let length = if left <= 10 {
            left
        } else {
            random.pick(&[6, 8, 10])
        };
        if left - length == 0 || left - length >= 6 {
            lengths.push(length);
            left -= length;
        }
    }
    lengths
}

/// A node of a length, with references below `bound`.
fn long_node(
    random: &mut Random,
    file: &mut Vec<u8>,
    length: usize,
    bound: usize,
    constructors: usize,
) {
    let mut node = || random.below(bound) as u16;
    match length {
        6 => put_record(file, kinds::READING, &[node() % MOST_READINGS as u16]),
        8 => put_record(file, kinds::NUMBER, &[node(), node()]),
        10 => put_record(file, kinds::IF, &[node(), node(), node()]),
        _ => {
            let mut fields = vec![node()];
            for clause in 0..(length - 6) / 4 {
                fields.extend_from_slice(&[clause as u16 % constructors as u16, node()]);
            }
            put_record(file, kinds::CASE, &fields);
        }
    }
}
