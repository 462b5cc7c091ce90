//! Rows in one call (document 02, request 1): the single runs in turn, and the
//! refusals in their order.

use super::*;
use crate::model::answer::RECORD;
use crate::model::batch::Rows;
use crate::model::run::run as single_run;
use crate::model::BatchBehaviour;

const FEW: Allowances = Allowances {
    steps: 30,
    nesting: 20,
    cells: 4,
};

/// result = down(r0), down(n) = if n < 1 then 8 / n else down(n - 1).
fn down() -> Vec<u8> {
    let n = || parameter(0);
    let next = call(1, vec![operator(SUBTRACT, n(), number(1))]);
    let ends = operator(LESS, n(), number(1));
    let body = if_else(ends, operator(DIVIDE, number(8), n()), next);
    let sheet = Program {
        readings: 1,
        arities: vec![],
        functions: vec![(0, call(1, vec![reading(0)])), (1, body)],
    };
    translated(&sheet.encode()).expect("accepted")
}

/// A batch with so many bytes lent: its answer, the cells and the records.
fn batch(file: &[u8], rows: Rows, lent: [usize; 2]) -> (Result<usize, Refusal>, [Vec<u8>; 2]) {
    let [mut cells, mut records] = lent.map(|length| vec![0xEE; length]);
    let result = Correct.run_rows(file, rows, &mut cells, &mut records);
    (result, [cells, records])
}

fn rows(count: u32, readings: &[i32]) -> Rows<'_> {
    Rows {
        count,
        readings,
        allowances: FEW,
    }
}

/// The cells of `down`, which remember these numbers.
fn counted(numbers: &[i32]) -> Vec<u8> {
    let cells = numbers.iter().enumerate().map(|(previous, &number)| {
        let label = (previous > 0) as u8;
        cell([label, previous as u8, 1], &[(0, number_entry(number))])
    });
    cells.flatten().collect()
}

#[test]
fn rows_are_run_in_turn() {
    let readings = [2, -4, 0, 9];
    let (result, [cells, records]) = batch(&down(), rows(4, &readings), [273, 81]);
    assert_eq!(result, Ok(80));
    assert_eq!(records[80], 0xEE);
    let answers: Vec<_> = records
        .chunks_exact(RECORD)
        .map(Answer::from_record)
        .collect();
    let expected = [
        ended(ZERO_DIVISOR, 25, 3),
        answered(-2, 9, 1),
        ended(ZERO_DIVISOR, 9, 1),
        ended(NO_STEP, 30, 4),
    ];
    assert_eq!(answers, expected.map(Some));
    assert_eq!(cells[..272], counted(&[9, 8, 7, 6]));
    assert_eq!(cells[272], 0xEE);
}

#[test]
fn a_row_leaves_the_cells_of_the_row_before() {
    let (result, [cells, _]) = batch(&down(), rows(2, &[2, -4]), [272, 40]);
    assert_eq!(result, Ok(40));
    // The first is written whole, so nothing of the row before counts there.
    assert_eq!(cells[..204], counted(&[-4, 1, 0]));
    assert_eq!(cells[204..], [0xEE; 68]);
    let mut in_turn = vec![0xEE; 272];
    for reading in [2, -4] {
        single_run(&Correct, &down(), &[reading], FEW, &mut in_turn);
    }
    assert_eq!(cells, in_turn);
}

#[test]
fn rows_without_readings() {
    let file = translated(&sheet_s()).unwrap();
    let (result, [cells, records]) = batch(&file, rows(16, &[]), [272, 320]);
    assert_eq!(result, Ok(320));
    for record in records.chunks_exact(RECORD) {
        assert_eq!(Answer::from_record(record), Some(answered(10, 11, 1)));
    }
    assert_eq!(cells[68], 0xEE);
    assert_eq!(batch(&file, rows(0, &[]), [272, 0]).0, Ok(0));
}

/// The number of a refused batch, which writes nothing.
fn refused(file: &[u8], rows: Rows, lent: [usize; 2]) -> u16 {
    let (result, buffers) = batch(file, rows, lent);
    let refusal = result.expect_err("refused");
    assert!(buffers.concat().iter().all(|&byte| byte == 0xEE));
    assert_eq!(refusal.place, 0);
    refusal.number
}

#[test]
fn refusals_of_batches() {
    let file = down();
    let seventeen = [0; 17];
    // The file, then 9, then 10, then 8, with all that come after it.
    assert_eq!(refused(&[], rows(17, &[0]), [271, 0]), TRUNCATED);
    assert_eq!(refused(&file, rows(17, &[0]), [271, 0]), BAD_READINGS);
    assert_eq!(
        refused(&file, rows(17, &seventeen), [272, 0]),
        BAD_ALLOWANCE
    );
    assert_eq!(refused(&file, rows(2, &[0, 0]), [271, 0]), BAD_ALLOWANCE);
    assert_eq!(refused(&file, rows(2, &[0, 0]), [272, 39]), SHORT_OUTPUT);
    let sixteen = &seventeen[..16];
    assert_eq!(batch(&file, rows(16, sixteen), [272, 320]).0, Ok(320));
    // No row is counted to 16, nor on 32 bits.
    assert_eq!(refused(&file, rows(17, sixteen), [272, 340]), BAD_READINGS);
    let pair = program(&[], vec![(0, operator(ADD, reading(0), reading(1)))]);
    let pair = Program {
        readings: 2,
        ..pair
    };
    let pair = translated(&pair.encode()).unwrap();
    assert_eq!(refused(&pair, rows(1 << 31, &[]), [272, 0]), BAD_READINGS);
    // No row is no reason to accept what is refused.
    assert_eq!(refused(&file, rows(0, &[0]), [272, 0]), BAD_READINGS);
    assert_eq!(refused(&file, rows(0, &[]), [271, 0]), BAD_ALLOWANCE);
}
