//! The search for a reading (document 02, request 12): the smallest value that
//! does it, the runs that do not count, the refusals, and the cells.

use super::*;
use crate::interface::Search;
use crate::model::run::run as single_run;
use crate::model::search::{code, Given};
use crate::model::SearchBehaviour;

const FEW: Allowances = Allowances {
    steps: 30,
    nesting: 20,
    cells: 4,
};

/// More cells than are lent.
const MANY: Allowances = Allowances { cells: 5, ..FEW };

type Found = Result<Option<i32>, Refusal>;

fn translation(readings: u16, arities: &[u16], functions: Vec<(u16, Expr)>) -> Vec<u8> {
    let sheet = Program {
        readings,
        ..program(arities, functions)
    };
    translated(&sheet.encode()).expect("accepted")
}

/// result = r1 - r0 * r0, with three readings.
fn squares() -> Vec<u8> {
    let square = operator(MULTIPLY, reading(0), reading(0));
    let result = operator(SUBTRACT, reading(1), square);
    translation(3, &[], vec![(0, result)])
}

/// result = down(r0), down(n) = if n < 1 then 8 / n else down(n - 1).
fn down() -> Vec<u8> {
    let n = || parameter(0);
    let next = call(1, vec![operator(SUBTRACT, n(), number(1))]);
    let ends = operator(LESS, n(), number(1));
    let body = if_else(ends, operator(DIVIDE, number(8), n()), next);
    let functions = vec![(0, call(1, vec![reading(0)])), (1, body)];
    translation(1, &[], functions)
}

fn search(position: u32, (lowest, highest): (i32, i32), wanted: i32) -> Search {
    Search {
        position,
        lowest,
        highest,
        wanted,
    }
}

/// A search with four cells lent, and the cells.
fn searched(
    file: &[u8],
    readings: &[i32],
    search: Search,
    allowances: Allowances,
) -> (Found, Vec<u8>) {
    let mut lent = vec![0xEE; 4 * 68];
    let given = Given {
        readings,
        search,
        allowances,
    };
    (Correct.find_reading(file, given, &mut lent), lent)
}

fn found(file: &[u8], readings: &[i32], search: Search) -> Found {
    searched(file, readings, search, FEW).0
}

/// The number of a refused search, which writes nothing.
fn refused(file: &[u8], readings: &[i32], search: Search, allowances: Allowances) -> u16 {
    let (found, lent) = searched(file, readings, search, allowances);
    assert_eq!(lent, [0xEE; 4 * 68]);
    let refusal = found.expect_err("refused");
    assert!(refusal.number < BAD_READINGS || refusal.place == 0);
    refusal.number
}

#[test]
fn the_smallest_value_that_does_it() {
    let file = squares();
    let readings = [5, 10, 0];
    let at = |lowest, highest| found(&file, &readings, search(0, (lowest, highest), 1));
    assert_eq!(at(-9, 9), Ok(Some(-3)));
    assert_eq!(at(-3, 9), Ok(Some(-3)));
    assert_eq!(at(-2, 9), Ok(Some(3)));
    assert_eq!(at(-2, 3), Ok(Some(3)));
    assert_eq!(at(3, 3), Ok(Some(3)));
    assert_eq!(at(-2, 2), Ok(None));
    assert_eq!(at(4, 4), Ok(None));
    // Another position; and one that no node names.
    assert_eq!(found(&file, &readings, search(1, (0, 99), 1)), Ok(Some(26)));
    assert_eq!(found(&file, &readings, search(2, (7, 9), -15)), Ok(Some(7)));
    assert_eq!(found(&file, &readings, search(2, (7, 9), 1)), Ok(None));
}

#[test]
fn ranges() {
    let file = translation(1, &[], vec![(0, reading(0))]);
    let at = |lowest, highest, wanted| found(&file, &[0], search(0, (lowest, highest), wanted));
    assert_eq!(at(0, 1023, 1023), Ok(Some(1023)));
    let (least, greatest) = (i32::MIN, i32::MAX);
    assert_eq!(
        at(least, least + 1023, least + 1023),
        Ok(Some(least + 1023))
    );
    assert_eq!(at(greatest - 1023, greatest, greatest), Ok(Some(greatest)));
    assert_eq!(at(greatest, greatest, least), Ok(None));
    let bad = |position, lowest, highest| {
        let number = refused(&file, &[0], search(position, (lowest, highest), 0), FEW);
        assert_eq!(number, BAD_RANGE);
    };
    bad(0, 0, 1024);
    bad(0, 1, 0);
    bad(0, least, greatest);
    bad(0, least, 0);
    bad(0, greatest, least);
    bad(1, 0, 0);
    bad(1 << 16, 0, 0);
    bad(u32::MAX, 0, 0);
    let none = translation(0, &[], vec![(0, number(7))]);
    assert_eq!(refused(&none, &[], search(0, (0, 0), 7), FEW), BAD_RANGE);
}

#[test]
fn stops_and_faults_do_not_count() {
    let file = down();
    // -9 gives 0; 0 to 2 fault; from 3 on the runs stop.
    assert_eq!(found(&file, &[0], search(0, (-9, 9), 0)), Ok(Some(-9)));
    assert_eq!(found(&file, &[0], search(0, (0, 9), 0)), Ok(None));
    assert_eq!(found(&file, &[0], search(0, (9, 9), 0)), Ok(None));
    let stops = Allowances { steps: 8, ..FEW };
    let (none, _) = searched(&file, &[0], search(0, (-9, -9), 0), stops);
    assert_eq!(none, Ok(None));
    // 12 / r0: the fault is passed over.
    let divided = operator(DIVIDE, number(12), reading(0));
    let file = translation(1, &[], vec![(0, divided)]);
    assert_eq!(found(&file, &[0], search(0, (-1, 9), 4)), Ok(Some(3)));
    // A product out of range, at -2 and 2.
    let product = operator(MULTIPLY, number(1 << 30), reading(0));
    let file = translation(1, &[], vec![(0, product)]);
    assert_eq!(found(&file, &[0], search(0, (-9, 9), 0)), Ok(Some(0)));
}

#[test]
fn a_tag_does_not_count() {
    let result = if_else(reading(0), build(1, vec![]), number(1));
    let file = translation(1, &[0, 0], vec![(0, result)]);
    assert_eq!(found(&file, &[0], search(0, (-3, 3), 1)), Ok(Some(0)));
    assert_eq!(found(&file, &[0], search(0, (1, 3), 1)), Ok(None));
}

#[test]
fn refusals_in_order() {
    let file = squares();
    let bad = search(3, (1, 0), 0);
    assert_eq!(refused(&[], &[], bad, MANY), TRUNCATED);
    assert_eq!(refused(&file, &[1, 2], bad, MANY), BAD_READINGS);
    assert_eq!(refused(&file, &[1, 2, 3], bad, MANY), BAD_ALLOWANCE);
    assert_eq!(refused(&file, &[1, 2, 3], bad, FEW), BAD_RANGE);
}

#[test]
fn the_cells_of_the_runs_in_turn() {
    let file = down();
    for (range, wanted, last) in [((-4, 2), 5, 2), ((-4, 2), -2, -4), ((2, 9), 5, 9)] {
        let (answer, cells) = searched(&file, &[7], search(0, range, wanted), FEW);
        assert_eq!(answer, Ok((wanted == -2).then_some(-4)));
        let mut in_turn = vec![0xEE; 4 * 68];
        for value in range.0..=last {
            single_run(&Correct, &file, &[value], FEW, &mut in_turn);
        }
        assert_eq!(cells, in_turn);
    }
    // -4 is found in one cell; those of the runs before stay past it.
    let mut lent = vec![0xEE; 4 * 68];
    single_run(&Correct, &file, &[2], FEW, &mut lent);
    let given = Given {
        readings: &[7],
        search: search(0, (-4, 2), -2),
        allowances: FEW,
    };
    let before = lent.clone();
    assert_eq!(Correct.find_reading(&file, given, &mut lent), Ok(Some(-4)));
    assert_eq!(lent[..68], cell([0, 0, 1], &[(0, number_entry(-4))]));
    assert_eq!(lent[68..], before[68..]);
}

#[test]
fn codes() {
    assert_eq!(code(Ok(Some(7))), 7);
    assert_eq!(code(Ok(Some(-1))), 0xFFFF_FFFF);
    assert_eq!(code(Ok(Some(i32::MIN))), 0x8000_0000);
    assert_eq!(code(Ok(None)), 24 << 32);
    assert_eq!(code(Err(Refusal::new(BAD_RANGE, 0))), 23 << 32);
    assert_eq!(code(Err(Refusal::new(OUT_OF_RANGE, 9))), 5 << 32 | 9);
}
