//! Cells given back (document 02, request 9).

use zifnora::build_sheet::*;
use zifnora::sizes::{CELL_BYTES, MOST_CELLS, MOST_NESTING, TRANSLATION_BYTES};
use zifnora::{translate_and_run, Allowances, Answer, Ended, Stop};

/// A run with so many cells: how it ended.
fn ended(arities: &[u16], functions: Vec<(u16, Expr)>, cells: u32) -> Ended {
    let sheet = Program {
        readings: 0,
        arities: arities.to_vec(),
        functions,
    };
    let allowances = Allowances {
        steps: u32::MAX,
        nesting: MOST_NESTING,
        cells,
    };
    let mut out = vec![0; TRANSLATION_BYTES];
    let mut lent = vec![0; CELL_BYTES * cells as usize];
    translate_and_run(&sheet.encode(), &mut out, &[], allowances, &mut lent)
}

#[test]
fn a_long_run_on_numbers() {
    // fib(n) = if n < 2 then n else fib(n - 1) + fib(n - 2)
    let fib = |n, cells| {
        let again = |less| call(1, vec![operator(SUBTRACT, parameter(0), number(less))]);
        let body = if_else(
            operator(LESS, parameter(0), number(2)),
            parameter(0),
            operator(ADD, again(1), again(2)),
        );
        ended(&[], vec![(0, call(1, vec![number(n)])), (1, body)], cells)
    };
    let answer = fib(20, MOST_CELLS);
    assert_eq!((answer.answer, answer.cells), (Answer::Number(6765), 20));
    assert_eq!(fib(20, 20), answer);
    let short = fib(20, 19);
    assert_eq!(
        (short.answer, short.cells),
        (Answer::Stopped(Stop::NoCell), 19)
    );
}

#[test]
fn a_constructor_remembered_in_an_older_cell() {
    // result = outer(pair(3)), outer(l) = first(l) + first(l) + first(l),
    // first(p) = case p of Pair(a, b) -> a, pair(n) = Pair(n, n)
    let kept = |cells| {
        let first = || call(2, vec![parameter(0)]);
        let sum = operator(ADD, operator(ADD, first(), first()), first());
        let functions = vec![
            (0, call(1, vec![call(3, vec![number(3)])])),
            (1, sum),
            (1, case(parameter(0), vec![(0, pattern(0))])),
            (1, build(0, vec![parameter(0), parameter(0)])),
        ];
        ended(&[2], functions, cells)
    };
    // Those of outer, the first call of first, and pair; over them one for each
    // further call of first.
    let answer = kept(4);
    assert_eq!((answer.answer, answer.cells), (Answer::Number(9), 4));
    assert_eq!(kept(3).answer, Answer::Stopped(Stop::NoCell));
}
