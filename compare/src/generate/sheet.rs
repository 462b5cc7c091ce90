//! Random well-formed sheets.

use super::expr::Grow;
use super::plan::{plan, Limits};
use super::random::Random;
use super::repeat::Earlier;
use zifnora::build_sheet::*;
use zifnora::sizes::MOST_NODES;

/// A well-formed sheet of small or middle size.
pub fn sheet(random: &mut Random) -> Program {
    some_sheet(random, false)
}

/// Such a sheet in which no expression breaks the types of its plan.
pub fn strict(random: &mut Random) -> Program {
    some_sheet(random, true)
}

/// Such a sheet with few nodes, of which a run reaches many.
pub fn tiny(random: &mut Random) -> Program {
    let limits = Limits {
        readings: (0, 2),
        constructors: (1, 3),
        functions: (1, 3),
        parameters: (0, 2),
        arity: (0, 2),
    };
    let budget = random.between(1, 5);
    program(random, &limits, budget, true)
}

fn some_sheet(random: &mut Random, strict: bool) -> Program {
    loop {
        let (limits, budget) = match random.below(10) {
            0 => (small(3, 1), random.between(1, 8)),
            1..=4 => (small(4, 3), random.between(4, 16)),
            5..=7 => (small(7, 5), random.between(8, 24)),
            8 => (small(12, 8), random.between(8, 40)),
            _ => (small(30, 4), random.between(3, 14)),
        };
        let program = program(random, &limits, budget, strict);
        let total: usize = program
            .functions
            .iter()
            .map(|function| function.1.size())
            .sum();
        if total <= MOST_NODES {
            return program;
        }
    }
}

/// A sheet that makes more or fewer cells by its first reading:
/// result = down(r0), down(n) = if n < 1 then r1 else down(n - 1).
pub fn counting() -> Program {
    let ends = operator(LESS, parameter(0), number(1));
    let next = operator(SUBTRACT, parameter(0), number(1));
    let down = if_else(ends, reading(1), call(1, vec![next]));
    Program {
        readings: 2,
        arities: vec![],
        functions: vec![(0, call(1, vec![reading(0)])), (1, down)],
    }
}

fn small(functions: usize, parameters: usize) -> Limits {
    let constructors = if functions < 4 { 0 } else { 2 };
    Limits {
        readings: (0, 4),
        constructors: (constructors, 6),
        functions: (1, functions),
        parameters: (0, parameters),
        arity: (0, 4),
    }
}

/// The file of a sheet that is made so.
pub fn encoded(random: &mut Random, make: fn(&mut Random) -> Program) -> Vec<u8> {
    let program = make(random);
    encode(random, &program)
}

/// Sheets in post-order or with the nodes in another allowed order.
pub fn encode(random: &mut Random, program: &Program) -> Vec<u8> {
    if random.chance(40) {
        program.encode()
    } else {
        program.encode_shuffled(|bound| random.below(bound))
    }
}

fn program(random: &mut Random, limits: &Limits, budget: usize, strict: bool) -> Program {
    let plan = plan(random, limits, strict);
    let mut earlier = Earlier::default();
    let mut functions: Vec<(u16, Expr)> = Vec::new();
    for number in 0..plan.functions.len() {
        let left = random.between(1, 2 * budget) as i32;
        let mut grow = Grow::new(random, &plan, &mut earlier, number, left);
        let body = grow.body();
        functions.push((plan.functions[number].parameters.len() as u16, body));
    }
    let arities = plan
        .constructors
        .iter()
        .map(|constructor| constructor.fields.len() as u16)
        .collect();
    Program {
        readings: plan.readings,
        arities,
        functions,
    }
}
