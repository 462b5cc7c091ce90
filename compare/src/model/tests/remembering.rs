//! What cells remember (document 02, request 7), on sheets and on translations
//! that no translator writes.

use super::*;
use crate::model::{plain, translation};

const AMPLE: Allowances = Allowances {
    steps: 1000,
    nesting: 100,
    cells: 4,
};

/// The answer of a sheet without remembering.
fn without(sheet: &[u8]) -> Answer {
    let read = Correct.read_sheet(sheet).expect("accepted");
    plain::run(&Correct.translate(&read), &[], AMPLE)
}

/// The answer and the cells of a translation.
fn ran(file: &[u8], allowances: Allowances) -> (Answer, Vec<u8>) {
    let mut lent = vec![0xEE; 68 * AMPLE.cells as usize];
    let answer = crate::model::run::run(&Correct, file, &[], allowances, &mut lent);
    lent.truncate(68 * answer.cells as usize);
    (answer, lent)
}

/// A translation of these records, without readings.
fn file_of(head: [u16; 3], records: &[(u16, &[u16])]) -> Vec<u8> {
    let mut file = Vec::new();
    put_record(&mut file, kinds::HEAD, &[0, head[0], head[1], head[2]]);
    for (kind, fields) in records {
        put_record(&mut file, *kind, fields);
    }
    file
}

#[test]
fn s_without_remembering() {
    assert_eq!(without(&sheet_s()), answered(10, 13, 2));
}

#[test]
fn a_parameter_used_five_times() {
    // result = five(1 + .. + 1), five(a) = a + a + a + a + a.
    let long = (1..20).fold(number(1), |sum, _| operator(ADD, sum, number(1)));
    let a = || parameter(0);
    let five = (1..5).fold(a(), |sum, _| operator(ADD, sum, a()));
    let sheet = program(&[], vec![(0, call(1, vec![long])), (1, five)]).encode();
    // The call, four sums, five formals; the long sum of 39 nodes once.
    assert_eq!(run(&sheet, 1000, 100, 1), answered(100, 10 + 39, 1));
    assert_eq!(without(&sheet), answered(100, 10 + 5 * 39, 1));
    assert_eq!(own(&sheet), Own::Number(100));
}

#[test]
fn a_constructor_is_remembered_with_its_context() {
    // result = first(pair(3)), pair(n) = Pair(n, n),
    // first(p) = case p of Pair(a, b) -> a + b.
    let pair = build(0, vec![parameter(0), parameter(0)]);
    let both = operator(ADD, pattern(0), pattern(1));
    let first = case(parameter(0), vec![(0, both)]);
    let result = call(2, vec![call(1, vec![number(3)])]);
    let sheet = program(&[2], vec![(0, result), (1, pair), (1, first)]).encode();
    let (answer, cells) = run_cells(&sheet, 1000, 100, 2);
    assert_eq!(answer, answered(6, 13, 2));
    // Node 5 is the pair; its context is the second cell.
    let outer = cell([0, 0, 2], &[(0, constructor_entry(5, 2))]);
    let inner = cell([0, 0, 1], &[(0, number_entry(3))]);
    assert_eq!(cells, [outer, inner].concat());
    assert_eq!(without(&sheet), answered(6, 18, 4));
}

#[test]
fn a_fault_and_a_stop_remember_nothing() {
    // result = g(1 / 0), g(a) = a.
    let fault = operator(DIVIDE, number(1), number(0));
    let sheet = program(&[], vec![(0, call(1, vec![fault])), (1, parameter(0))]).encode();
    let empty = cell([0, 0, 1], &[]);
    let (answer, cells) = run_cells(&sheet, 1000, 100, 1);
    assert_eq!((answer, cells), (ended(ZERO_DIVISOR, 5, 1), empty.clone()));
    for (steps, nesting) in [(4, 100), (2, 100)] {
        let (answer, cells) = run_cells(&sheet, steps, nesting, 1);
        assert_eq!((answer, cells), (ended(NO_STEP, steps, 1), empty.clone()));
    }
    let (answer, cells) = run_cells(&sheet, 1000, 3, 1);
    assert_eq!((answer, cells), (ended(NO_NESTING, 3, 1), empty));
}

#[test]
fn the_eighth_entry_keeps_the_callee() {
    // result = h(0, .., 7), h(.., p, q) = q - p.
    let last = operator(SUBTRACT, parameter(7), parameter(6));
    let result = call(1, (10..18).map(number).collect());
    let sheet = program(&[], vec![(0, result), (8, last)]).encode();
    let (answer, cells) = run_cells(&sheet, 1000, 100, 1);
    assert_eq!(answer, answered(1, 6, 1));
    let entries = [(6, number_entry(16)), (7, number_entry(17))];
    assert_eq!(cells, cell([0, 0, 1], &entries));
    assert_eq!(cells[60..], [1, 0, 17, 0, 0, 0, 1, 0]);
}

/// Function 0 calls function 1, whose body visits its own formal twice and
/// that of function 2 twice under its cell.
fn foreign() -> Vec<u8> {
    file_of(
        [2, 3, 10],
        &[
            (kinds::FUNCTION, &[3, 0]),
            (kinds::FUNCTION, &[6, 1]),
            (kinds::FUNCTION, &[1, 1]),
            (kinds::FORMAL_LIST, &[0]),
            (kinds::FORMAL_LIST, &[1]),
            (kinds::NUMBER, &[20, 0]),
            (kinds::NUMBER, &[3, 0]),
            (kinds::CALL, &[0, 1]),
            (kinds::FORMAL, &[0]),
            (kinds::FORMAL, &[1]),
            (kinds::OPERATOR, &[ADD, 3, 4]),
            (kinds::OPERATOR, &[ADD, 5, 4]),
            (kinds::OPERATOR, &[ADD, 6, 3]),
            (kinds::OPERATOR, &[SUBTRACT, 7, 4]),
            (kinds::NUMBER, &[9, 0]),
        ],
    )
}

#[test]
fn a_formal_under_a_foreign_cell() {
    let file = foreign();
    let (answer, cells) = ran(&file, AMPLE);
    // Call, four operators, five formals; its own actual once, the other's
    // thrice.
    assert_eq!(answer, answered(20 + 3 + 3 + 20 - 3, 5 + 5 + 1 + 3, 1));
    assert_eq!(cells, cell([0, 0, 1], &[(0, number_entry(20))]));
}

#[test]
fn the_parameter_counts_say_whose_a_formal_is() {
    // Both formals to function 1, so that its cell remembers both.
    let mut file = foreign();
    let counts = |file: &mut [u8], one: u8, two: u8| (file[26], file[34]) = (one, two);
    counts(&mut file, 2, 0);
    let (answer, cells) = ran(&file, AMPLE);
    assert_eq!(answer, answered(43, 5 + 5 + 1 + 1, 1));
    let entries = [(0, number_entry(20)), (1, number_entry(3))];
    assert_eq!(cells, cell([0, 0, 1], &entries));
    // Both to function 2, so that it remembers none.
    counts(&mut file, 0, 2);
    let (answer, cells) = ran(&file, AMPLE);
    assert_eq!(answer, answered(43, 5 + 5 + 2 + 3, 1));
    assert_eq!(cells, cell([0, 0, 1], &[]));
}

#[test]
fn refusals_of_parameter_counts() {
    let with = |counts: [u16; 3]| {
        let mut file = foreign();
        for (function, count) in counts.into_iter().enumerate() {
            file[18 + 8 * function..][..2].copy_from_slice(&count.to_le_bytes());
        }
        translation::read(&Correct, &file).map(|_| ())
    };
    assert_eq!(with([0, 1, 1]), Ok(()));
    // Function 0 may have parameters.
    assert_eq!(with([2, 0, 0]), Ok(()));
    // The last function is record 3.
    assert_eq!(with([0, 1, 0]), Err(Refusal::new(BAD_COUNT, 3)));
    assert_eq!(with([1, 1, 1]), Err(Refusal::new(BAD_COUNT, 3)));
    assert_eq!(with([0, 9, 0]), Err(Refusal::new(BAD_COUNT, 2)));
    assert_eq!(with([9, 0, 0]), Err(Refusal::new(BAD_COUNT, 1)));
    assert_eq!(with([0, 8, 0]), Err(Refusal::new(BAD_COUNT, 3)));
    assert_eq!(with([0, 65_535, 3]), Err(Refusal::new(BAD_COUNT, 2)));
}

#[test]
fn no_actual_as_before() {
    // A formal of function 0 under the empty context.
    let empty = file_of(
        [1, 1, 1],
        &[
            (kinds::FUNCTION, &[1, 1]),
            (kinds::FORMAL_LIST, &[0]),
            (kinds::FORMAL, &[0]),
        ],
    );
    assert_eq!(ran(&empty, AMPLE).0, ended(NO_ACTUAL, 1, 0));
    // A call with label 1, where the formal lists one actual.
    let mut beyond = foreign();
    let call = beyond.len() - 8 - 4 * 10 - 2 * 6 - 8;
    beyond[call + 4] = 1;
    let (answer, cells) = ran(&beyond, AMPLE);
    assert_eq!(answer, ended(NO_ACTUAL, 6, 1));
    assert_eq!(cells, cell([1, 0, 1], &[]));
}
