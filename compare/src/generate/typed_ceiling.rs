//! Well typed sheets at the ceilings of document 01.

use super::expr::Grow;
use super::infer::infer;
use super::plan::{plan, Limits, Plan};
use super::random::Random;
use super::repeat::Earlier;
use super::typed::encode;
use zifnora::build_sheet::{case, if_else, number, operator, parameter, pattern, Expr, Program};
use zifnora::sizes::{MOST_CONSTRUCTORS, MOST_FIELDS, MOST_FUNCTIONS, MOST_NODES, MOST_READINGS};

/// The parameters that the scrutinee of the wide case is, and that has the
/// function's own result type.
const SCRUTINEE: u16 = MOST_FIELDS as u16 - 2;
const OWN: u16 = MOST_FIELDS as u16 - 1;

/// A well typed sheet with 32 readings, 64 constructors of arity 8, 64 functions
/// of 8 parameters but `result`, a case of up to 64 clauses and 1,024 nodes.
pub fn greatest(random: &mut Random) -> Vec<u8> {
    let limits = Limits {
        readings: (MOST_READINGS, MOST_READINGS),
        constructors: (MOST_CONSTRUCTORS, MOST_CONSTRUCTORS),
        functions: (MOST_FUNCTIONS, MOST_FUNCTIONS),
        parameters: (MOST_FIELDS, MOST_FIELDS),
        arity: (MOST_FIELDS, MOST_FIELDS),
    };
    let mut plan = plan(random, &limits, true);
    let last = MOST_FUNCTIONS - 1;
    let wide = random.between(1, last - 1);
    let of = random.between(1, plan.types as usize) as u16;
    plan.functions[0].result = 0;
    plan.functions[last].result = 0;
    plan.functions[wide].parameters[SCRUTINEE as usize] = of;
    for function in &mut plan.functions[1..] {
        function.parameters[OWN as usize] = function.result;
    }
    let mut left = MOST_NODES;
    let mut earlier = Earlier::default();
    let mut functions = Vec::new();
    for function in 0..last {
        let body = match function == wide {
            true => wide_case(random, &plan, wide, of),
            false => body(random, &plan, &mut earlier, function, left),
        };
        left -= body.size();
        functions.push((plan.functions[function].parameters.len() as u16, body));
    }
    // The last function takes the nodes that are left.
    functions.push((MOST_FIELDS as u16, exact(random, left)));
    let program = Program {
        readings: plan.readings,
        arities: vec![MOST_FIELDS as u16; MOST_CONSTRUCTORS],
        functions,
    };
    let (typed, _) = infer(random, &program);
    encode(random, &typed)
}

/// A body that keeps nodes for the wide case and the functions still to come, of
/// those left.
fn body(
    random: &mut Random,
    plan: &Plan,
    earlier: &mut Earlier,
    function: usize,
    left: usize,
) -> Expr {
    let spend = random.between(1, 14) as i32;
    let body = Grow::new(random, plan, earlier, function, spend).body();
    let coming = MOST_FUNCTIONS - function;
    let spare = left.saturating_sub(90 + coming);
    match function {
        _ if body.size() <= 2 * spare / coming => body,
        0 => number(0),
        _ => parameter(OWN),
    }
}

/// A case with a clause for (almost) every constructor of a type.
fn wide_case(random: &mut Random, plan: &Plan, function: usize, of: u16) -> Expr {
    let result = plan.functions[function].result;
    let constructors = plan.constructors.iter().enumerate();
    let mut clauses = Vec::new();
    for (number, constructor) in constructors.filter(|(_, constructor)| constructor.own == of) {
        let position = random.below(MOST_FIELDS);
        let node = match constructor.fields[position] == result {
            true => pattern(position as u16),
            false => parameter(OWN),
        };
        clauses.push((number as u16, node));
    }
    if random.chance(30) {
        clauses.remove(random.below(clauses.len()));
    }
    case(parameter(SCRUTINEE), clauses)
}

/// A number worked out by exactly `size` nodes, which are not two.
fn exact(random: &mut Random, size: usize) -> Expr {
    match size {
        0..=2 => number(random.number()),
        _ if size % 2 == 0 => {
            let no = exact(random, size - 3);
            if_else(number(random.number()), parameter(OWN), no)
        }
        _ => {
            let left = 2 * random.below(size / 2) + 1;
            let code = random.below(6) as u16;
            let low = exact(random, left);
            let high = exact(random, size - 1 - left);
            operator(code, low, high)
        }
    }
}
