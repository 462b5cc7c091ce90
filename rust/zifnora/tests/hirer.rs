//! The run for a hirer: which readings a set closes, the place and the order
//! of the refusal, and that closed readings change nothing.

use zifnora::build_sheet::*;
use zifnora::sizes::{ANSWER_BYTES, CELL_BYTES, MOST_READINGS, TRANSLATION_BYTES};
use zifnora::{numbers, raw, run, run_for_hirer, translate};
use zifnora::{Allowances, Allowed, Answer, Ended, Refusal};

const AMPLE: Allowances = Allowances {
    steps: 1000,
    nesting: 100,
    cells: 10,
};

/// More cells than are lent.
const MANY: Allowances = Allowances { cells: 11, ..AMPLE };

/// A byte that no buffer here gets by a call.
const UNTOUCHED: u8 = 0xEE;

fn cells_lent() -> Vec<u8> {
    vec![UNTOUCHED; CELL_BYTES * AMPLE.cells as usize]
}

fn translated(readings: u16, functions: Vec<(u16, Expr)>) -> Vec<u8> {
    let sheet = Program {
        readings,
        arities: vec![],
        functions,
    };
    let mut out = vec![0; TRANSLATION_BYTES];
    let length = translate(&sheet.encode(), &mut out).expect("accepted");
    out.truncate(length);
    out
}

/// result = if r0 < 5 then half(r0) else half(r2), half(x) = x / 2, with four
/// readings: nodes 0 and 3 are reading 0, node 5 is reading 2; node 0 is
/// record 4.
fn axles() -> Vec<u8> {
    let half = |argument| call(1, vec![argument]);
    let cold = operator(LESS, reading(0), number(5));
    let result = if_else(cold, half(reading(0)), half(reading(2)));
    let body = operator(DIVIDE, parameter(0), number(2));
    translated(4, vec![(0, result), (1, body)])
}

/// The hirer's run and the cells that it leaves.
fn hired(allowed: Allowed, readings: &[i32], allowances: Allowances) -> (Ended, Vec<u8>) {
    let mut cells = cells_lent();
    let ended = run_for_hirer(&axles(), allowed, readings, allowances, &mut cells);
    (ended, cells)
}

/// The owner's run and the cells that it leaves.
fn owned(readings: &[i32]) -> (Ended, Vec<u8>) {
    let mut cells = cells_lent();
    let ended = run(&axles(), readings, AMPLE, &mut cells);
    (ended, cells)
}

/// A refusal, with the cells as they were.
fn refused(number: u16, place: u32) -> (Ended, Vec<u8>) {
    let ended = Ended {
        answer: Answer::Refused(Refusal::new(number, place)),
        steps: 0,
        cells: 0,
    };
    (ended, cells_lent())
}

#[test]
fn the_full_set_and_the_readings_used_are_the_owners_run() {
    let used = Allowed::NONE.with(0).with(2);
    for readings in [[3, 7, 100, 9], [30, 7, 100, 9]] {
        let owner = owned(&readings);
        assert!(matches!(owner.0.answer, Answer::Number(_)));
        for allowed in [Allowed::ALL, used, used.with(31)] {
            assert_eq!(hired(allowed, &readings, AMPLE), owner);
        }
    }
}

#[test]
fn the_empty_set() {
    let first = refused(numbers::CLOSED_READING, 4);
    assert_eq!(hired(Allowed::NONE, &[3, 7, 100, 9], AMPLE), first);
    // A translation without reading nodes, though it asks for readings.
    let file = translated(4, vec![(0, number(6))]);
    let mut cells = cells_lent();
    let ended = run_for_hirer(&file, Allowed::NONE, &[1, 2, 3, 4], AMPLE, &mut cells);
    assert_eq!(ended.answer, Answer::Number(6));
}

#[test]
fn a_closed_reading_is_refused_reached_or_not() {
    let second = refused(numbers::CLOSED_READING, 4 + 5);
    let without = Allowed::NONE.with(0).with(1).with(3);
    // Reading 2 is not reached, and then it is.
    assert_eq!(hired(without, &[3, 7, 100, 9], AMPLE), second);
    assert_eq!(hired(without, &[30, 7, 100, 9], AMPLE), second);
    let first = refused(numbers::CLOSED_READING, 4);
    assert_eq!(hired(Allowed::NONE.with(2), &[30, 7, 100, 9], AMPLE), first);
}

#[test]
fn after_the_files_refusals_and_before_9_and_10() {
    let mut cells = cells_lent();
    let file = axles();
    let cut = &file[..file.len() - 1];
    let ended = run_for_hirer(cut, Allowed::NONE, &[], MANY, &mut cells);
    let last = refused(numbers::TRUNCATED, 14);
    assert_eq!((ended, cells), last);
    let closed = refused(numbers::CLOSED_READING, 4);
    assert_eq!(hired(Allowed::NONE, &[], MANY), closed);
    assert_eq!(
        hired(Allowed::ALL, &[], MANY),
        refused(numbers::BAD_READINGS, 0)
    );
    let four = [3, 7, 100, 9];
    assert_eq!(
        hired(Allowed::ALL, &four, MANY),
        refused(numbers::BAD_ALLOWANCE, 0)
    );
}

#[test]
fn closed_readings_change_nothing() {
    let used = Allowed::NONE.with(0).with(2);
    let (one, other) = ([30, 7, 100, 9], [30, i32::MIN, 100, 0]);
    for allowances in [AMPLE, MANY, Allowances { steps: 5, ..AMPLE }] {
        assert_eq!(
            hired(used, &one, allowances),
            hired(used, &other, allowances)
        );
    }
    // Nor where the run is refused for them.
    let (one, other) = ([30, 7, 100, 9], [3, 7, -1, 9]);
    for allowed in [Allowed::NONE, Allowed::NONE.with(1)] {
        assert_eq!(hired(allowed, &one, AMPLE), hired(allowed, &other, AMPLE));
    }
}

#[test]
fn the_last_reading() {
    let last = MOST_READINGS as u16 - 1;
    let file = translated(MOST_READINGS as u16, vec![(0, reading(last))]);
    let readings: Vec<i32> = (100..132).collect();
    let answer =
        |allowed| run_for_hirer(&file, allowed, &readings, AMPLE, &mut cells_lent()).answer;
    assert_eq!(answer(Allowed::NONE.with(last)), Answer::Number(131));
    let others = (0..last).fold(Allowed::NONE, Allowed::with);
    let closed = Answer::Refused(Refusal::new(numbers::CLOSED_READING, 2));
    assert_eq!(answer(others), closed);
}

#[test]
fn the_raw_call_gives_code_and_record() {
    let file = axles();
    let four = [3, 7, 100, 9];
    let mut record = [UNTOUCHED; ANSWER_BYTES + 1];
    let (mut cells, set) = (cells_lent(), 0b0101);
    let code = raw::run_for_hirer(&file, set, &four, AMPLE, &mut cells, &mut record);
    assert_eq!((code, record[ANSWER_BYTES]), (0, UNTOUCHED));
    let (mut owners, mut again) = ([UNTOUCHED; ANSWER_BYTES], cells_lent());
    raw::run(&file, &four, AMPLE, &mut again, &mut owners);
    assert_eq!((&record[..ANSWER_BYTES], cells), (&owners[..], again));
    // A refused run returns 0 too.
    let code = raw::run_for_hirer(&file, 0, &four, AMPLE, &mut cells_lent(), &mut record);
    assert_eq!((code, &record[4..8]), (0, &[21, 0, 4, 0][..]));
    let mut short = [UNTOUCHED; ANSWER_BYTES - 1];
    let code = raw::run_for_hirer(&file, 0, &four, AMPLE, &mut cells_lent(), &mut short);
    let refusal = Refusal::new(numbers::SHORT_OUTPUT, 0);
    assert_eq!(raw::result(code), Err(refusal));
    assert_eq!(short, [UNTOUCHED; ANSWER_BYTES - 1]);
}
