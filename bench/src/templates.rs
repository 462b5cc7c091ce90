//! Sheets of 1,024 nodes for the translator: made from templates, with few
//! distinct trees, and such as make it hard to tell calls apart. And sheets of as
//! many nodes that stand one below the other, or side by side.

use zifnora::build_sheet::*;
use zifnora::sizes::{MOST_CONSTRUCTORS, MOST_FIELDS, MOST_FUNCTIONS, MOST_NODES, MOST_READINGS};

pub fn all() -> Vec<(&'static str, Program)> {
    vec![
        ("equal calls", calls(|_| 7)),
        ("distinct calls", calls(|turn| turn)),
        ("equal nested calls", nested([1, 1])),
        ("nested, other leaf", nested([1, 2])),
        ("template, all limits", blocks(|_| 0)),
        ("blocks, all limits", blocks(|function| function)),
        ("longest sheet", longest()),
    ]
}

/// Sheets of 1,024 nodes, or of few less, one below the other or side by side.
pub fn deep_and_wide() -> Vec<(&'static str, Program)> {
    vec![
        ("chain of builds", chain()),
        ("chain of calls", levels(1, |inner| call(1, vec![inner]))),
        (
            "left operands",
            levels(2, |inner| operator(ADD, inner, number(1))),
        ),
        (
            "right operands",
            levels(2, |inner| operator(ADD, number(1), inner)),
        ),
        (
            "last nodes of ifs",
            levels(3, |inner| if_else(number(1), number(2), inner)),
        ),
        ("last of 8 arguments", arguments()),
        ("cases of 64 clauses", cases()),
    ]
}

/// Each node but one has one child: no sheet is deeper.
pub fn chain() -> Program {
    let body = (1..MOST_NODES).fold(number(1), |inner, _| build(0, vec![inner]));
    Program {
        readings: MOST_READINGS as u16,
        arities: vec![1; MOST_CONSTRUCTORS],
        functions: vec![(0, body)],
    }
}

/// A chain of builds with types, around a build without fields.
pub fn typed_chain() -> TypedProgram {
    let body = (1..MOST_NODES).fold(build(0, vec![]), |inner, _| build(1, vec![inner]));
    let mut constructors = vec![(1, vec![1]); MOST_CONSTRUCTORS];
    constructors[0] = (1, vec![]);
    TypedProgram {
        readings: MOST_READINGS as u16,
        constructors,
        functions: vec![(1, vec![], body)],
    }
}

/// As many levels as fit, where each has so many nodes more.
fn levels(each: usize, level: fn(Expr) -> Expr) -> Program {
    let count = (MOST_NODES - 2) / each;
    let body = (0..count).fold(number(0), |inner, _| level(inner));
    program(vec![(0, body), (1, parameter(0))])
}

/// Calls of 8 arguments, each the last argument of another.
fn arguments() -> Program {
    let count = (MOST_NODES - 2) / MOST_FIELDS;
    let body = (0..count).fold(number(0), |inner, _| {
        let mut arguments = vec![number(1); MOST_FIELDS - 1];
        arguments.push(inner);
        call(1, arguments)
    });
    program(vec![(0, body), (MOST_FIELDS as u16, parameter(0))])
}

/// Cases with a clause for each constructor, in as many functions as fit.
fn cases() -> Program {
    let wide = || {
        let clauses = (0..MOST_CONSTRUCTORS as u16).map(|clause| (clause, number(1)));
        case(number(0), clauses.collect())
    };
    let count = MOST_NODES / wide().size();
    limits((0..count).map(|_| (0, wide())).collect())
}

fn program(functions: Vec<(u16, Expr)>) -> Program {
    Program {
        readings: 0,
        arities: vec![],
        functions,
    }
}

/// A sum of calls of one function; an unused one has the node that is left.
fn calls(argument: fn(i32) -> i32) -> Program {
    let count = MOST_NODES as i32 / 3;
    let calls = (0..count).map(|turn| call(1, vec![number(argument(turn))]));
    let sum = calls.reduce(|sum, call| operator(ADD, sum, call));
    program(vec![
        (0, sum.expect("calls")),
        (1, parameter(0)),
        (0, number(0)),
    ])
}

/// A function called inside its own argument, in two functions.
fn nested(leaves: [i32; 2]) -> Program {
    let depth = MOST_NODES / 2 - 3;
    let [one, two] = leaves.map(|leaf| (0..depth).fold(number(leaf), |sum, _| call(2, vec![sum])));
    let two = if_else(two, number(0), number(0));
    program(vec![(0, one), (0, two), (1, parameter(0))])
}

/// 64 functions of 16 nodes; each has a call with 8 arguments. All have the
/// same arguments, or each function its own.
fn blocks(argument: fn(i32) -> i32) -> Program {
    let functions = (0..MOST_FUNCTIONS as i32).map(|function| {
        let arguments = (0..MOST_FIELDS as i32).map(|at| number(argument(function) + at));
        let block = call(1, arguments.collect());
        let sum = operator(ADD, number(1), operator(ADD, number(2), number(3)));
        let parameters = if function == 0 { 0 } else { MOST_FIELDS };
        (parameters as u16, if_else(block, number(0), sum))
    });
    limits(functions.collect())
}

/// No accepted sheet is longer: numbers in cases of 14 clauses.
fn longest() -> Program {
    let each = MOST_NODES / MOST_FUNCTIONS - 2;
    let functions = (0..MOST_FUNCTIONS).map(|function| {
        let clauses = (0..each).map(|clause| (clause as u16, number(clause as i32)));
        let parameters = if function == 0 { 0 } else { MOST_FIELDS };
        (parameters as u16, case(number(0), clauses.collect()))
    });
    limits(functions.collect())
}

fn limits(functions: Vec<(u16, Expr)>) -> Program {
    Program {
        readings: MOST_READINGS as u16,
        arities: vec![MOST_FIELDS as u16; MOST_CONSTRUCTORS],
        functions,
    }
}
