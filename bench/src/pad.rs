//! The same program in a larger file: unused functions before or after its
//! own ones (`result` stays first).

use zifnora::build_sheet::{number, operator, Expr, Program, ADD};
use zifnora::sizes::MOST_FUNCTIONS;

/// Pads to `nodes` nodes; before or after the program's own functions.
pub fn pad(program: &Program, nodes: usize, before: bool) -> Program {
    let own: usize = program
        .functions
        .iter()
        .map(|function| function.1.size())
        .sum();
    let mut left = nodes.saturating_sub(own);
    let room = MOST_FUNCTIONS - program.functions.len();
    let each = (left / room + 1).max(31) | 1;
    let mut unused = Vec::new();
    while left > 0 {
        // Sums of numbers have odd sizes; an even rest becomes two functions.
        let size = if left >= each {
            each
        } else {
            left - (left + 1) % 2
        };
        unused.push((0, sum(size)));
        left -= size;
    }
    let shift = if before { unused.len() as u16 } else { 0 };
    let mut own = program.functions.iter().map(|(parameters, body)| {
        let mut body = body.clone();
        shift_calls(&mut body, shift);
        (*parameters, body)
    });
    let mut functions = vec![own.next().expect("result")];
    if before {
        functions.append(&mut unused);
    }
    functions.extend(own);
    functions.append(&mut unused);
    Program {
        readings: program.readings,
        arities: program.arities.clone(),
        functions,
    }
}

/// A sum of numbers with an odd number of nodes.
fn sum(size: usize) -> Expr {
    let mut expr = number(1);
    for _ in 0..(size - 1) / 2 {
        expr = operator(ADD, expr, number(1));
    }
    expr
}

/// Renumbers calls: functions but `result` move up.
fn shift_calls(expr: &mut Expr, shift: u16) {
    match expr {
        Expr::Operator(_, left, right) => {
            shift_calls(left, shift);
            shift_calls(right, shift);
        }
        Expr::If(condition, yes, no) => {
            shift_calls(condition, shift);
            shift_calls(yes, shift);
            shift_calls(no, shift);
        }
        Expr::Call(function, arguments) => {
            if *function > 0 {
                *function += shift;
            }
            arguments
                .iter_mut()
                .for_each(|argument| shift_calls(argument, shift));
        }
        Expr::Build(_, arguments) => {
            arguments
                .iter_mut()
                .for_each(|argument| shift_calls(argument, shift));
        }
        Expr::Case(scrutinee, clauses) => {
            shift_calls(scrutinee, shift);
            clauses
                .iter_mut()
                .for_each(|clause| shift_calls(&mut clause.1, shift));
        }
        _ => {}
    }
}
