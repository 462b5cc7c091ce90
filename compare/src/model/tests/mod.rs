//! Document 01's "Sheets to try" and document 002's two examples.

mod batch;
mod canonical;
mod driver_view;
mod given_back;
mod hirer;
mod labels;
mod refusals;
mod remembering;
mod search;
mod typed;

use super::answer::Answer;
use super::name::{self, Own};
use super::{Behaviour, Correct, Refusal};
use crate::generate::random::Random;
use crate::interface::Allowances;
use zifnora::build_sheet::*;
use zifnora::kinds::translation as kinds;
use zifnora::numbers::*;

fn program(arities: &[u16], functions: Vec<(u16, Expr)>) -> Program {
    Program {
        readings: 0,
        arities: arities.to_vec(),
        functions,
    }
}

/// S: result = g(7) - g(2), g(a) = a + a.
fn sheet_s() -> Vec<u8> {
    let result = operator(SUBTRACT, call(1, vec![number(7)]), call(1, vec![number(2)]));
    program(
        &[],
        vec![(0, result), (1, operator(ADD, parameter(0), parameter(0)))],
    )
    .encode()
}

fn translated(sheet: &[u8]) -> Result<Vec<u8>, Refusal> {
    let mut out = vec![0xEE; 40_960];
    let length = Correct.translate_into(sheet, &mut out)?;
    assert!(out[length..].iter().all(|&byte| byte == 0xEE));
    out.truncate(length);
    Ok(out)
}

fn run_cells(sheet: &[u8], steps: u32, nesting: u32, cells: u32) -> (Answer, Vec<u8>) {
    let mut lent = vec![0xEE; 68 * cells as usize];
    let mut out = vec![0; 40_960];
    let allowances = Allowances {
        steps,
        nesting,
        cells,
    };
    let answer = Correct.translate_and_run(sheet, &mut out, &[], allowances, &mut lent);
    (answer, lent)
}

fn run(sheet: &[u8], steps: u32, nesting: u32, cells: u32) -> Answer {
    run_cells(sheet, steps, nesting, cells).0
}

/// An entry that remembers a number, without its last two bytes.
fn number_entry(number: i32) -> [u8; 6] {
    let [a, b, c, d] = number.to_le_bytes();
    [1, 0, a, b, c, d]
}

/// An entry that remembers a constructor, without its last two bytes.
fn constructor_entry(node: u8, context: u8) -> [u8; 6] {
    [2, 0, node, 0, context, 0]
}

/// The bytes of a cell with these entries by position.
fn cell([label, previous, callee]: [u8; 3], entries: &[(usize, [u8; 6])]) -> Vec<u8> {
    let mut bytes = vec![0; 68];
    bytes[..4].copy_from_slice(&[label, 0, previous, 0]);
    for (position, entry) in entries {
        bytes[4 + 8 * position..][..6].copy_from_slice(entry);
    }
    bytes[66] = callee;
    bytes
}

fn own(sheet: &[u8]) -> Own {
    let sheet = Correct.read_sheet(sheet).expect("accepted");
    name::answer(&sheet, &[], 1000, 1000)
}

fn answered(value: i32, steps: u32, cells: u16) -> Answer {
    Answer {
        value,
        steps,
        cells,
        ..Answer::default()
    }
}

fn ended(outcome: u16, steps: u32, cells: u16) -> Answer {
    Answer {
        outcome,
        steps,
        cells,
        ..Answer::default()
    }
}

#[test]
fn s_has_its_sizes_and_bytes() {
    let sheet = sheet_s();
    assert_eq!(sheet.len(), 92);
    let out = translated(&sheet).unwrap();
    assert_eq!(out.len(), 100);
    let mut expected = Vec::new();
    let records: [(u16, &[u16]); 12] = [
        (kinds::HEAD, &[0, 1, 2, 8]),
        (kinds::FUNCTION, &[5, 0]),
        (kinds::FUNCTION, &[3, 1]),
        (kinds::FORMAL_LIST, &[0, 2]),
        (kinds::NUMBER, &[7, 0]),
        (kinds::CALL, &[0, 1]),
        (kinds::NUMBER, &[2, 0]),
        (kinds::CALL, &[1, 1]),
        (kinds::OPERATOR, &[SUBTRACT, 1, 3]),
        (kinds::FORMAL, &[0]),
        (kinds::FORMAL, &[0]),
        (kinds::OPERATOR, &[ADD, 5, 6]),
    ];
    for (kind, fields) in records {
        put_record(&mut expected, kind, fields);
    }
    assert_eq!(out, expected);
}

#[test]
fn s_runs_as_stated() {
    let sheet = sheet_s();
    let (answer, cells) = run_cells(&sheet, 1000, 100, 100);
    assert_eq!(answer, answered(10, 11, 1));
    // The second call uses the cell again that the first gave back.
    assert_eq!(cells[..68], cell([1, 0, 1], &[(0, number_entry(2))]));
    assert!(cells[68..].iter().all(|&byte| byte == 0xEE));
    assert_eq!(run(&sheet, 11, 5, 1), answered(10, 11, 1));
    assert_eq!(run(&sheet, 10, 5, 1), ended(NO_STEP, 10, 1));
    assert_eq!(run(&sheet, 11, 4, 1), ended(NO_NESTING, 4, 1));
    assert_eq!(run(&sheet, 11, 5, 0), ended(NO_CELL, 2, 0));
    assert_eq!(run(&sheet, 4, 4, 1), ended(NO_STEP, 4, 1));
    assert_eq!(own(&sheet), Own::Number(10));
}

#[test]
fn the_crate_decodes_the_models_records() {
    let mut random = Random::new(1);
    for _ in 0..1000 {
        let answer = Answer {
            outcome: random.bits() as u16,
            value: random.number(),
            steps: random.bits() as u32,
            node: random.bits() as u16,
            context: random.bits() as u16,
            cells: random.bits() as u16,
        };
        let expected = zifnora::Record {
            outcome: answer.outcome,
            value: answer.value,
            steps: answer.steps,
            node: answer.node,
            context: answer.context,
            cells: answer.cells,
        };
        let record = answer.record();
        assert_eq!(zifnora::Record::from_bytes(&record), Some(expected));
        assert_eq!(Answer::from_record(&record), Some(answer));
    }
}

#[test]
fn arguments_are_not_worked_out_early() {
    let fault = operator(DIVIDE, number(1), number(0));
    let k = program(
        &[],
        vec![
            (0, call(1, vec![number(1), fault.clone()])),
            (2, parameter(0)),
        ],
    )
    .encode();
    assert_eq!(run(&k, 100, 10, 10).value, 1);
    assert_eq!(run(&k, 100, 10, 10).outcome, NUMBER);
    assert_eq!(own(&k), Own::Number(1));
    let divided = program(&[], vec![(0, fault)]).encode();
    assert_eq!(run(&divided, 100, 10, 10), ended(ZERO_DIVISOR, 3, 0));
    assert_eq!(own(&divided), Own::Fault(ZERO_DIVISOR));
}

#[test]
fn head_of_ones() {
    // ones = Cons(1, ones); head(l) = case l of Cons(h, t) -> h.
    let ones = build(0, vec![number(1), call(1, vec![])]);
    let head = case(parameter(0), vec![(0, pattern(0))]);
    let result = call(2, vec![call(1, vec![])]);
    let sheet = program(&[2], vec![(0, result), (0, ones.clone()), (1, head)]).encode();
    assert_eq!(run(&sheet, 100, 10, 10), answered(1, 8, 2));
    assert_eq!(own(&sheet), Own::Number(1));
    // ones itself: a constructor with node and context.
    let sheet = program(&[2], vec![(0, call(1, vec![])), (0, ones)]).encode();
    let answer = run(&sheet, 100, 10, 10);
    let expected = Answer {
        outcome: CONSTRUCTOR,
        value: 0,
        steps: 2,
        node: 3,
        context: 1,
        cells: 1,
    };
    assert_eq!(answer, expected);
    assert_eq!(own(&sheet), Own::Constructor(0));
}

#[test]
fn operators() {
    let of = |code, left, right| {
        let sheet = program(&[], vec![(0, operator(code, number(left), number(right)))]).encode();
        run(&sheet, 10, 10, 0)
    };
    assert_eq!(of(DIVIDE, -7, 2), answered(-3, 3, 0));
    assert_eq!(of(ADD, i32::MAX, 1), answered(i32::MIN, 3, 0));
    assert_eq!(of(DIVIDE, i32::MIN, -1), answered(i32::MIN, 3, 0));
    assert_eq!(of(SUBTRACT, i32::MIN, 1), answered(i32::MAX, 3, 0));
    assert_eq!(of(MULTIPLY, 65536, 65536), ended(OVERFLOW, 3, 0));
    assert_eq!(of(MULTIPLY, i32::MAX, 1), answered(i32::MAX, 3, 0));
    assert_eq!(of(MULTIPLY, 65536, 32768), ended(OVERFLOW, 3, 0));
    assert_eq!(of(MULTIPLY, -65536, 32768), answered(i32::MIN, 3, 0));
    assert_eq!(of(MULTIPLY, 715_827_883, -3), ended(OVERFLOW, 3, 0));
    assert_eq!(of(MULTIPLY, i32::MIN, -1), ended(OVERFLOW, 3, 0));
    assert_eq!(of(MULTIPLY, 46340, 46340), answered(2_147_395_600, 3, 0));
    assert_eq!(of(MULTIPLY, 46341, 46341), ended(OVERFLOW, 3, 0));
    assert_eq!(of(LESS, -1, 0), answered(1, 3, 0));
    assert_eq!(of(EQUAL, 3, 4), answered(0, 3, 0));
}

#[test]
fn loop_stops() {
    let sheet = program(&[], vec![(0, call(0, vec![]))]).encode();
    assert_eq!(run(&sheet, 3, 9, 9), ended(NO_STEP, 3, 3));
    assert_eq!(own(&sheet), Own::Unknown);
}

#[test]
fn examples_of_document_002() {
    // result = f 3 + f 5; f x = g (x-1); g y = y+2.
    let result = operator(ADD, call(1, vec![number(3)]), call(1, vec![number(5)]));
    let f = call(2, vec![operator(SUBTRACT, parameter(0), number(1))]);
    let g = operator(ADD, parameter(0), number(2));
    let first = program(&[], vec![(0, result), (1, f), (1, g)]).encode();
    assert_eq!(run(&first, 1000, 100, 100).value, 10);
    assert_eq!(own(&first), Own::Number(10));

    // data Func = Add Int | Sq; result = inc (Add 1) 2 + inc Sq 3; ..
    let result = operator(
        ADD,
        call(1, vec![build(0, vec![number(1)]), number(2)]),
        call(1, vec![build(1, vec![]), number(3)]),
    );
    let inc = call(
        2,
        vec![parameter(0), operator(ADD, parameter(1), number(1))],
    );
    let apply = case(
        parameter(0),
        vec![
            (0, call(3, vec![pattern(0), parameter(1)])),
            (1, call(4, vec![parameter(1)])),
        ],
    );
    let add = operator(ADD, parameter(0), parameter(1));
    let sq = operator(MULTIPLY, parameter(0), parameter(0));
    let functions = vec![(0, result), (2, inc), (2, apply), (2, add), (1, sq)];
    let second = program(&[1, 0], functions).encode();
    assert_eq!(run(&second, 1000, 100, 100).value, 20);
    assert_eq!(own(&second), Own::Number(20));
}
