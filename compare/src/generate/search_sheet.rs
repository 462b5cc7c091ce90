//! Sheets whose answer goes by one reading: a number, often the same for several
//! values, a constructor, a fault or a run that stops; with more cells for some
//! values than for others.

use super::random::Random;
use zifnora::build_sheet::*;

/// The functions by their numbers.
const DOWN: u16 = 1;
const SPIN: u16 = 2;

/// The arities of the constructors, which are the tags 0 to 3.
const ARITIES: [u16; 4] = [0, 1, 0, 2];

/// A sheet, and the position of the reading.
pub fn by_one_reading(random: &mut Random) -> (Program, u32) {
    let readings = random.between(1, 4) as u16;
    let position = random.below(readings as usize) as u16;
    let other = random.below(readings as usize) as u16;
    let bound = random.below(8) as i32 - 3;
    let mut part = || part(random, position, other);
    let parts = [part(), part(), part()];
    let program = Program {
        readings,
        arities: ARITIES.to_vec(),
        functions: vec![
            (0, result(random, position, bound, parts)),
            (1, down(random)),
            (1, spin()),
        ],
    };
    (program, position as u32)
}

/// One part for all values, or one below a bound, and others from it on.
fn result(random: &mut Random, position: u16, bound: i32, parts: [Expr; 3]) -> Expr {
    let [one, two, three] = parts;
    let below = operator(LESS, reading(position), number(bound));
    let at = operator(EQUAL, reading(position), number(bound));
    match random.below(5) {
        0 => one,
        1 => if_else(below, one, two),
        2 => if_else(at, one, two),
        _ => if_else(below, one, if_else(at, two, three)),
    }
}

fn part(random: &mut Random, position: u16, other: u16) -> Expr {
    let it = || reading(position);
    let small = number(random.below(10) as i32 - 3);
    match random.below(18) {
        0 => small,
        1 => operator(ADD, it(), small),
        2 => operator(SUBTRACT, small, it()),
        3 => operator(MULTIPLY, it(), it()),
        4 => operator(DIVIDE, it(), number(3)),
        5 => operator(EQUAL, it(), small),
        6 => operator(DIVIDE, number(12), operator(SUBTRACT, it(), small)),
        7 => operator(MULTIPLY, it(), number(1 << 29)),
        8 => operator(ADD, small, build(0, vec![])),
        9 | 10 => constructor(random, position),
        11 => call(SPIN, vec![it()]),
        12 => operator(ADD, it(), reading(other)),
        13 => operator(DIVIDE, it(), reading(other)),
        14 | 15 => call(DOWN, vec![operator(SUBTRACT, small, it())]),
        _ => call(DOWN, vec![it()]),
    }
}

fn constructor(random: &mut Random, position: u16) -> Expr {
    let tag = random.below(ARITIES.len());
    let fields = vec![reading(position); ARITIES[tag] as usize];
    build(tag as u16, fields)
}

/// down(n) = if n < 1 then n else down(n - 1), or 1 + down(n - 1), whose cells are
/// alive together.
fn down(random: &mut Random) -> Expr {
    let n = || parameter(0);
    let next = call(DOWN, vec![operator(SUBTRACT, n(), number(1))]);
    let next = match random.below(2) {
        0 => next,
        _ => operator(ADD, number(1), next),
    };
    if_else(operator(LESS, n(), number(1)), n(), next)
}

/// spin(n) = spin(n + 1).
fn spin() -> Expr {
    call(SPIN, vec![operator(ADD, parameter(0), number(1))])
}
