//! Sheets whose nodes stand one below the other, up to as many as a sheet may
//! have.

use super::infer::infer;
use super::random::Random;
use super::{sheet, typed};
use zifnora::build_sheet::{build, call, case, if_else, number, operator, parameter, pattern};
use zifnora::build_sheet::{Expr, Program};
use zifnora::sizes::{MOST_FIELDS, MOST_NODES};

/// Functions of one and of eight parameters, and the deep one, of eight.
const SINGLE: u16 = 1;
const WIDE: u16 = 2;
const DEEP: u16 = 3;

/// Constructors with one field and with eight.
const ONE: u16 = 0;
const EIGHT: u16 = 1;

/// What stands beside the deep child of a node.
#[derive(Clone, Copy)]
enum Way {
    Nothing,
    Operand,
    Anything,
}

/// The file of a sheet with a deep function, mostly typed where it has types.
pub fn deep(random: &mut Random) -> Vec<u8> {
    let size = match random.below(3) {
        0 => random.between(300, MOST_NODES),
        _ => MOST_NODES,
    };
    let program = program(random, size);
    match infer(random, &program) {
        (typed, true) if random.chance(70) => typed::encode(random, &typed),
        _ => sheet::encode(random, &program),
    }
}

/// A sheet of so many nodes, or of few less.
fn program(random: &mut Random, size: usize) -> Program {
    let wide = MOST_FIELDS as u16;
    let result = call(DEEP, vec![number(3); MOST_FIELDS]);
    let [single, last] = [0, wide - 1].map(parameter);
    let left = size - result.size() - single.size() - last.size();
    let deep = body(random, left);
    Program {
        readings: 1,
        arities: vec![1, wide],
        functions: vec![(0, result), (1, single), (wide, last), (wide, deep)],
    }
}

/// A body of so many nodes, or of few less: a deep expression, or a case whose
/// scrutinee or a clause's node is one.
fn body(random: &mut Random, size: usize) -> Expr {
    let way = random.pick(&[Way::Nothing, Way::Operand, Way::Anything]);
    match random.below(4) {
        0 => {
            let scrutinee = around(random, way, size - 2, number(1));
            case(scrutinee, vec![(EIGHT, pattern(3))])
        }
        1 => {
            let node = around(random, way, size - 3, pattern(0));
            let scrutinee = parameter(random.below(MOST_FIELDS) as u16);
            case(scrutinee, vec![(ONE, node), (EIGHT, number(2))])
        }
        _ => around(random, way, size, parameter(2)),
    }
}

/// An expression of so many nodes, or of few less, around a leaf.
fn around(random: &mut Random, way: Way, size: usize, leaf: Expr) -> Expr {
    let (mut inner, mut left) = (leaf, size - 1);
    loop {
        let beside = match way {
            Way::Nothing => 0,
            Way::Operand => 1,
            Way::Anything => random.pick(&[0, 0, 1, 1, 1, 2, 2, MOST_FIELDS - 1]),
        };
        if left < 1 + beside {
            return inner;
        }
        left -= 1 + beside;
        inner = level(random, inner, beside);
    }
}

/// A node with an expression and so many leaves as its children: none, one, two or
/// seven.
fn level(random: &mut Random, inner: Expr, beside: usize) -> Expr {
    let mut children: Vec<Expr> = (0..beside).map(|at| number(at as i32)).collect();
    children.insert(random.below(1 + beside), inner);
    let mut each = children.drain(..);
    let mut next = || each.next().expect("a child");
    match beside {
        1 => operator(random.below(6) as u16, next(), next()),
        2 => if_else(next(), next(), next()),
        _ => {
            let children = each.collect();
            match (beside, random.chance(10)) {
                (0, true) => build(ONE, children),
                (0, false) => call(SINGLE, children),
                (_, true) => build(EIGHT, children),
                (_, false) => call(WIDE, children),
            }
        }
    }
}
