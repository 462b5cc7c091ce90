//! Small sheets with all sorts of nodes, almost all of which a run reaches.

use super::random::Random;
use zifnora::build_sheet::*;

const NIL: u16 = 0;
const CONS: u16 = 1;
const ONE: u16 = 2;
const BOTH: u16 = 3;

/// The functions by their numbers; some sheets have the first two only.
const SUM: u16 = 1;
const OPEN: u16 = 2;
const MAKE: u16 = 3;
const WRAP: u16 = 4;

/// result = sum(make(1)) + open(wrap(r0, make(1))), sum(l) = case l of Nil -> 0,
/// Cons(n, l) -> n + sum(l), open(w) = case w of One(n) -> n, Both(n, l) -> n +
/// sum(l), make(n) is a list of n numbers, wrap(n, l) = if n then Both(n, l) else
/// One(n); or with parts of these.
pub fn reached(random: &mut Random) -> Program {
    let rest = || operator(ADD, pattern(0), call(SUM, vec![pattern(1)]));
    let of_cons = match random.below(2) {
        0 => rest(),
        _ => pattern(0),
    };
    let of_both = match random.below(4) {
        0 => rest(),
        1 => call(SUM, vec![pattern(1)]),
        _ => pattern(0),
    };
    let sum = case(parameter(0), vec![(NIL, number(0)), (CONS, of_cons)]);
    let open = case(parameter(0), vec![(ONE, pattern(0)), (BOTH, of_both)]);
    let makers = random.chance(50);
    let list = match random.below(4) {
        0 => build(NIL, vec![]),
        1.. if makers => call(MAKE, vec![number(1)]),
        _ => build(CONS, vec![number(5), build(NIL, vec![])]),
    };
    let wrapped = match random.below(4) {
        0 => build(ONE, vec![number(6)]),
        1.. if makers => call(WRAP, vec![reading(0), list.clone()]),
        _ => build(BOTH, vec![reading(0), list.clone()]),
    };
    let (sums, opens) = (call(SUM, vec![list]), call(OPEN, vec![wrapped]));
    let result = match random.below(4) {
        0 => sums,
        1 => opens,
        2 => if_else(operator(EQUAL, reading(0), number(0)), sums, opens),
        _ => operator(ADD, sums, opens),
    };
    let mut functions = vec![(0, result), (1, sum), (1, open)];
    if makers {
        functions.extend([(1, make()), (2, wrap())]);
    }
    Program {
        readings: 1,
        arities: vec![0, 2, 1, 2],
        functions,
    }
}

fn make() -> Expr {
    let less = operator(SUBTRACT, parameter(0), number(1));
    let longer = build(CONS, vec![parameter(0), call(MAKE, vec![less])]);
    let some = operator(LESS, number(0), parameter(0));
    if_else(some, longer, build(NIL, vec![]))
}

fn wrap() -> Expr {
    let both = build(BOTH, vec![parameter(0), parameter(1)]);
    if_else(parameter(0), both, build(ONE, vec![parameter(0)]))
}
