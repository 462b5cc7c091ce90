//! Sheets as templates make them: a block of calls written again and again, as
//! it is or with one place changed; in one function, in two, and in the
//! clauses of cases.

use super::random::Random;
use zifnora::build_sheet::*;
use zifnora::sizes::MOST_NODES;

/// The functions by their numbers.
const MINUS: u16 = 1;
const PLUS: u16 = 2;
const LEFT: u16 = 3;
const RIGHT: u16 = 4;
const FIRST: u16 = 5;
const SECOND: u16 = 6;
const SEVEN: u16 = 7;
const PAIR: u16 = 8;
const OTHER_PAIR: u16 = 9;

/// The constructors: 0 and 1, of two fields each.
const ARITIES: [u16; 2] = [2, 2];

pub fn template(random: &mut Random) -> Program {
    loop {
        let program = program(random);
        let sizes = program.functions.iter().map(|function| function.1.size());
        if sizes.sum::<usize>() <= MOST_NODES {
            return program;
        }
    }
}

/// minus(a, b) = a - b, plus(a, b) = a + b; left and right have parameters,
/// first and second are cases over one or two scrutinees; seven, pair and
/// other take no parameters.
fn program(random: &mut Random) -> Program {
    let constants = [number(1), number(2), reading(0), call(SEVEN, vec![])];
    let parameters = [&constants[..], &[parameter(0), parameter(1)]].concat();
    let patterns = [&constants[..1], &[pattern(0), pattern(1)]].concat();
    let [constant, of_parameters, of_patterns] =
        [&constants[..], &parameters, &patterns].map(|leaves| block(random, leaves, 2));
    let pairs = [0, 1].map(|tag| build(tag, vec![number(3), number(4)]));
    let entries = [
        constant.clone(),
        call(LEFT, vec![number(5), number(6)]),
        call(RIGHT, vec![number(5), number(6)]),
        call(FIRST, vec![pairs[0].clone()]),
        call(SECOND, vec![pairs[0].clone()]),
    ];
    let result = sum(entries.map(|entry| copies(random, &entry)).to_vec());
    let [left, right] = [(); 2].map(|()| {
        let own = copies(random, &of_parameters);
        operator(ADD, own, copy(random, &constant))
    });
    let [first, second] = [(); 2].map(|()| {
        let scrutinee = random.pick(&[PARAMETER, PAIR, PAIR, OTHER_PAIR]);
        let scrutinee = match scrutinee {
            PARAMETER => parameter(0),
            function => call(function, vec![]),
        };
        let clauses = [0, 1].map(|tag| (tag, copies(random, &of_patterns)));
        case(scrutinee, clauses.to_vec())
    });
    let [minus, plus] = [SUBTRACT, ADD].map(|code| operator(code, parameter(0), parameter(1)));
    let [pair, other] = pairs;
    Program {
        readings: 2,
        arities: ARITIES.to_vec(),
        functions: vec![
            (0, result),
            (2, minus),
            (2, plus),
            (2, left),
            (2, right),
            (1, first),
            (1, second),
            (0, number(7)),
            (0, pair),
            (0, other),
        ],
    }
}

/// In place of a function: the scrutinee is the parameter.
const PARAMETER: u16 = 0;

/// A call of minus or plus over the leaves.
fn block(random: &mut Random, leaves: &[Expr], depth: u32) -> Expr {
    let function = random.pick(&[MINUS, PLUS]);
    let arguments = (0..2).map(|_| tree(random, leaves, depth)).collect();
    call(function, arguments)
}

fn tree(random: &mut Random, leaves: &[Expr], depth: u32) -> Expr {
    if depth == 0 || random.chance(50) {
        return leaves[random.below(leaves.len())].clone();
    }
    let mut part = || tree(random, leaves, depth - 1);
    let parts = [part(), part(), part()];
    match (random.below(4), parts) {
        (0, [one, two, _]) => operator(SUBTRACT, one, two),
        (1, [one, two, three]) => if_else(one, two, three),
        _ => block(random, leaves, depth - 1),
    }
}

/// The sum of one to four copies, now and then of fifty.
fn copies(random: &mut Random, block: &Expr) -> Expr {
    let count = match random.below(30) {
        0 => 50,
        _ => random.between(1, 4),
    };
    sum((0..count).map(|_| copy(random, block)).collect())
}

fn sum(parts: Vec<Expr>) -> Expr {
    let parts = parts.into_iter();
    parts
        .reduce(|sum, part| operator(ADD, sum, part))
        .expect("a part")
}

fn copy(random: &mut Random, block: &Expr) -> Expr {
    let mut copy = block.clone();
    if random.chance(30) {
        change(random, &mut copy);
    }
    copy
}

/// Changes one place: a leaf, or what is called or built.
fn change(random: &mut Random, expr: &mut Expr) {
    let here = random.chance(25);
    match expr {
        Expr::Number(number) => *number ^= 1,
        Expr::Reading(number) | Expr::Parameter(number) | Expr::Pattern(number) => *number ^= 1,
        Expr::Call(function, _) if here => *function = exchanged(*function),
        Expr::Build(constructor, _) if here => *constructor ^= 1,
        Expr::Call(_, parts) | Expr::Build(_, parts) => {
            let count = parts.len();
            if let Some(part) = parts.get_mut(random.below(count)) {
                change(random, part);
            }
        }
        Expr::Operator(_, left, right) => match random.below(2) {
            0 => change(random, left),
            _ => change(random, right),
        },
        Expr::If(condition, yes, no) => match random.below(3) {
            0 => change(random, condition),
            1 => change(random, yes),
            _ => change(random, no),
        },
        Expr::Case(..) => unreachable!("a case is a body"),
    }
}

/// The other function with the same parameters.
fn exchanged(function: u16) -> u16 {
    match function {
        MINUS => PLUS,
        PLUS => MINUS,
        LEFT => RIGHT,
        RIGHT => LEFT,
        FIRST => SECOND,
        SECOND => FIRST,
        other => other,
    }
}
