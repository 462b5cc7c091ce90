//! Cells given back (document 02, request 9).

use super::*;
use crate::model::{kept, sheet};

/// The answer of the rule that keeps all cells, at the most that there may be.
fn kept(sheet: &[u8]) -> Answer {
    let read = Correct.read_sheet(sheet).expect("accepted");
    let allowances = Allowances {
        steps: 1_000_000,
        nesting: 1024,
        cells: 960,
    };
    kept::run(&Correct.translate(&read), &[], allowances)
}

/// The answer of a run with just so many cells, and the bytes of all of them.
fn just(sheet: &[u8], cells: u32) -> (Answer, Vec<u8>) {
    let one_less = run(sheet, 1000, 100, cells - 1);
    assert_eq!(one_less.outcome, NO_CELL);
    assert_eq!(one_less.cells as u32, cells - 1);
    run_cells(sheet, 1000, 100, cells)
}

/// With constructor 0, a pair: first(p) = case p of Pair(a, b) -> a is function
/// 1, pair(n) = Pair(n, n) is function 2; `result` is function 0, and the
/// functions from 3 on are given.
fn pairs(result: Expr, functions: Vec<(u16, Expr)>) -> Vec<u8> {
    let first = case(parameter(0), vec![(0, pattern(0))]);
    let pair = build(0, vec![parameter(0), parameter(0)]);
    let known = vec![(0, result), (1, first), (1, pair)];
    program(&[2], [known, functions].concat()).encode()
}

fn first(p: Expr) -> Expr {
    call(1, vec![p])
}

fn pair(n: Expr) -> Expr {
    call(2, vec![n])
}

fn sum(left: Expr, right: Expr) -> Expr {
    operator(ADD, left, right)
}

#[test]
fn cells_given_back_are_used_by_the_next_call() {
    // result = outer(7) - g(2), outer(a) = g(a) + g(a + 1), g(a) = a + a.
    let g = |n| call(2, vec![n]);
    let result = operator(SUBTRACT, call(1, vec![number(7)]), g(number(2)));
    let outer = sum(g(parameter(0)), g(sum(parameter(0), number(1))));
    let twice = sum(parameter(0), parameter(0));
    let sheet = program(&[], vec![(0, result), (1, outer), (1, twice)]).encode();
    let (answer, cells) = just(&sheet, 2);
    assert_eq!((answer.value, answer.cells), (26, 2));
    assert_eq!(kept(&sheet), Answer { cells: 4, ..answer });
    // The first is that of g(2); the bytes of the second, which g(a + 1) gave
    // back, stay.
    let own = cell([0, 0, 2], &[(0, number_entry(2))]);
    let stale = cell([2, 1, 2], &[(0, number_entry(8))]);
    assert_eq!(cells, [own, stale].concat());
}

#[test]
fn long_runs_on_numbers_go_on() {
    // fib(n) = if n < 2 then n else fib(n - 1) + fib(n - 2).
    let less = |by| operator(SUBTRACT, parameter(0), number(by));
    let again = |by| call(1, vec![less(by)]);
    let body = if_else(
        operator(LESS, parameter(0), number(2)),
        parameter(0),
        sum(again(1), again(2)),
    );
    let sheet = program(&[], vec![(0, call(1, vec![number(15)])), (1, body)]).encode();
    assert_eq!(kept(&sheet).outcome, NO_CELL);
    let answer = run(&sheet, 1_000_000, 1024, 15);
    assert_eq!((answer.outcome, answer.value, answer.cells), (0, 610, 15));
    assert_eq!(run(&sheet, 1_000_000, 1024, 14).outcome, NO_CELL);
}

#[test]
fn a_constructor_in_an_older_cell_keeps_them() {
    // result = outer(pair(3)), outer(l) = first(l) + first(l) + first(l).
    let l = || first(parameter(0));
    let outer = sum(sum(l(), l()), l());
    let sheet = pairs(call(3, vec![pair(number(3))]), vec![(1, outer)]);
    let (answer, cells) = just(&sheet, 4);
    assert_eq!((answer.value, answer.cells), (9, 4));
    assert_eq!(kept(&sheet), Answer { cells: 5, ..answer });
    // The outer cell remembers the pair of cell 3, so the first call of `first`
    // gives nothing back; the second gives back its own cell.
    assert_eq!(cells[4..10], constructor_entry(node_of_pair(&sheet), 3));
    assert_eq!(cells[3 * 68 + 2], 1);
    assert_eq!(own(&sheet), Own::Number(9));
}

/// The node that builds.
fn node_of_pair(sheet: &[u8]) -> u8 {
    let read = Correct.read_sheet(sheet).expect("accepted");
    let builds = |node: &sheet::Node| matches!(node, sheet::Node::Build { .. });
    read.nodes.iter().position(builds).expect("one") as u8
}

#[test]
fn a_constructor_in_the_own_cell_or_a_newer_one_does_not() {
    // result = first(pair(3)) + first(pair(4)).
    let result = sum(first(pair(number(3))), first(pair(number(4))));
    let sheet = pairs(result, vec![]);
    let (answer, _) = just(&sheet, 2);
    assert_eq!((answer.value, answer.cells), (7, 2));
    assert_eq!(kept(&sheet), Answer { cells: 4, ..answer });
    // result = outer(3) + outer(4), outer(n) = first(pair(n)).
    let outer = |n| call(3, vec![number(n)]);
    let sheet = pairs(
        sum(outer(3), outer(4)),
        vec![(1, first(pair(parameter(0))))],
    );
    let (answer, _) = just(&sheet, 3);
    assert_eq!((answer.value, answer.cells), (7, 3));
    assert_eq!(kept(&sheet), Answer { cells: 6, ..answer });
}

#[test]
fn a_constructor_counts_for_the_calls_around() {
    // result = outer(pair(3)), outer(l) = mid(l) + deep(l),
    // mid(p) = first(p) + 1, deep(l) = mid(l).
    let mid = |p| call(4, vec![p]);
    let outer = sum(mid(parameter(0)), call(5, vec![parameter(0)]));
    let functions = vec![
        (1, outer),
        (1, sum(first(parameter(0)), number(1))),
        (1, mid(parameter(0))),
    ];
    let sheet = pairs(call(3, vec![pair(number(3))]), functions);
    // Outer, mid, first and pair, then deep, mid and first over them.
    let (answer, _) = just(&sheet, 7);
    assert_eq!((answer.value, answer.cells), (8, 7));
    assert_eq!(kept(&sheet), answer);
    assert_eq!(own(&sheet), Own::Number(8));
}

#[test]
fn a_call_that_ends_with_a_constructor_keeps_its_cells() {
    // result = first(pick(3)) + first(pick(4)),
    // pick(n) = if id(n) then pair(n) else pair(0), id(n) = n.
    let id = call(4, vec![parameter(0)]);
    let pick = if_else(id, pair(parameter(0)), pair(number(0)));
    let pick = vec![(1, pick), (1, parameter(0))];
    let picked = |n| first(call(3, vec![number(n)]));
    let sheet = pairs(sum(picked(3), picked(4)), pick);
    // First and pick, and then id, which gives its cell back to pair.
    let (answer, _) = just(&sheet, 3);
    assert_eq!((answer.value, answer.cells), (7, 3));
    assert_eq!(kept(&sheet), Answer { cells: 8, ..answer });
}

#[test]
fn a_stop_and_a_fault_give_nothing_back() {
    // result = g(h(1)) / 0, g(a) = a + h(a), h(a) = a.
    let h = |n| call(2, vec![n]);
    let g = sum(parameter(0), h(parameter(0)));
    let result = operator(DIVIDE, call(1, vec![h(number(1))]), number(0));
    let sheet = program(&[], vec![(0, result), (1, g), (1, parameter(0))]).encode();
    let (answer, cells) = just(&sheet, 2);
    assert_eq!(answer, ended(ZERO_DIVISOR, 11, 2));
    let outer = cell([0, 0, 1], &[(0, number_entry(1))]);
    let inner = |label, previous| cell([label, previous, 2], &[(0, number_entry(1))]);
    assert_eq!(cells, [outer.clone(), inner(1, 1)].concat());
    // Stopped before the second call of h: the bytes of the first stay.
    let (answer, cells) = run_cells(&sheet, 7, 100, 2);
    assert_eq!(answer, ended(NO_STEP, 7, 2));
    assert_eq!(cells, [outer, inner(0, 0)].concat());
}

#[test]
fn the_count_is_of_cells_alive_together() {
    // result = g(0) + .. + g(19), g(a) = a.
    let calls = (0..20).map(|n| call(1, vec![number(n)]));
    let result = calls.reduce(sum).expect("twenty");
    let sheet = program(&[], vec![(0, result), (1, parameter(0))]).encode();
    // More than eight visits to actuals, and one cell.
    let (answer, _) = just(&sheet, 1);
    assert_eq!(answer, answered(190, 19 + 3 * 20, 1));
    assert_eq!(
        kept(&sheet),
        Answer {
            cells: 20,
            ..answer
        }
    );
}
