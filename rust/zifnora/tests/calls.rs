//! The typed calls on small sheets, one for each class of answer, and what
//! they leave in the lent buffers.

use zifnora::build_sheet::*;
use zifnora::sizes::{ANSWER_BYTES, CELL_BYTES, ENTRY_BYTES, MOST_ROWS, TRANSLATION_BYTES};
use zifnora::translated_length;
use zifnora::{kinds, numbers, raw};
use zifnora::{list_context, list_context_into, run, run_rows, translate, translate_and_run};
use zifnora::{Allowances, Answer, Ended, Fault, Record, Refusal, Stop};

const AMPLE: Allowances = Allowances {
    steps: 1000,
    nesting: 100,
    cells: 100,
};

/// A byte that no buffer here gets by a call.
const UNTOUCHED: u8 = 0xEE;

fn cells_lent() -> Vec<u8> {
    vec![UNTOUCHED; CELL_BYTES * AMPLE.cells as usize]
}

fn sheet(readings: u16, arities: &[u16], functions: Vec<(u16, Expr)>) -> Vec<u8> {
    let program = Program {
        readings,
        arities: arities.to_vec(),
        functions,
    };
    program.encode()
}

/// Document 01's S: result = g(7) - g(2), g(a) = a + a.
fn sheet_s() -> Vec<u8> {
    let g = |argument| call(1, vec![number(argument)]);
    let result = operator(SUBTRACT, g(7), g(2));
    let twice = operator(ADD, parameter(0), parameter(0));
    sheet(0, &[], vec![(0, result), (1, twice)])
}

/// The sheet of examples/c: result = cold(r0, r1),
/// cold(p, t) = if t < 20 then p else p - (t - 20) * 2.
fn sheet_pressure() -> Vec<u8> {
    let (p, t) = (|| parameter(0), || parameter(1));
    let above = operator(SUBTRACT, t(), number(20));
    let warm = operator(SUBTRACT, p(), operator(MULTIPLY, above, number(2)));
    let cold = if_else(operator(LESS, t(), number(20)), p(), warm);
    let result = call(1, vec![reading(0), reading(1)]);
    sheet(2, &[], vec![(0, result), (2, cold)])
}

/// Both ways to run a sheet, which have to agree.
fn ended(sheet: &[u8], readings: &[i32], allowances: Allowances) -> Ended {
    let mut out = vec![UNTOUCHED; TRANSLATION_BYTES];
    let (mut cells, mut again) = (cells_lent(), cells_lent());
    let joined = translate_and_run(sheet, &mut out, readings, allowances, &mut cells);
    let mut translation = vec![UNTOUCHED; TRANSLATION_BYTES];
    let length = translate(sheet, &mut translation).expect("accepted");
    let alone = run(&translation[..length], readings, allowances, &mut again);
    assert_eq!(joined, alone);
    assert_eq!(cells, again);
    assert!(matches!(joined.answer, Answer::Refused(_)) || out == translation);
    joined
}

fn translated(sheet: &[u8]) -> Vec<u8> {
    let mut out = vec![0; TRANSLATION_BYTES];
    let length = translate(sheet, &mut out).expect("accepted");
    out.truncate(length);
    out
}

#[test]
fn a_number() {
    let expected = Ended {
        answer: Answer::Number(823),
        steps: 14,
        cells: 1,
    };
    assert_eq!(ended(&sheet_pressure(), &[845, 31], AMPLE), expected);
    let cold = ended(&sheet_pressure(), &[-845, 19], AMPLE);
    assert_eq!(cold.answer, Answer::Number(-845));
}

#[test]
fn a_constructor() {
    // result = ones; ones = Cons(1, ones)
    let ones = build(0, vec![number(1), call(1, vec![])]);
    let sheet = sheet(0, &[2], vec![(0, call(1, vec![])), (0, ones)]);
    let expected = Ended {
        answer: Answer::Constructor {
            tag: 0,
            node: 3,
            context: 1,
        },
        steps: 2,
        cells: 1,
    };
    assert_eq!(ended(&sheet, &[], AMPLE), expected);
}

#[test]
fn equal_calls_share_a_label() {
    // result = g(7) - g(7); g(y) = y: the formal lists one actual, and lists two where the second call is g(8)
    let length = |second| {
        let g = |n| call(1, vec![number(n)]);
        let result = operator(SUBTRACT, g(7), g(second));
        let sheet = sheet(0, &[], vec![(0, result), (1, parameter(0))]);
        translated_length(&sheet, u64::MAX).expect("accepted")
    };
    assert_eq!(length(7), 82);
    assert_eq!(length(8), 84);
}

#[test]
fn each_stop() {
    let stopped = |steps, nesting, cells| {
        let allowances = Allowances {
            steps,
            nesting,
            cells,
        };
        let ended = ended(&sheet_s(), &[], allowances);
        (ended.answer, ended.steps, ended.cells)
    };
    assert_eq!(stopped(11, 5, 1), (Answer::Number(10), 11, 1));
    assert_eq!(stopped(10, 5, 1), (Answer::Stopped(Stop::NoStep), 10, 1));
    assert_eq!(stopped(11, 4, 1), (Answer::Stopped(Stop::NoNesting), 4, 1));
    assert_eq!(stopped(11, 5, 0), (Answer::Stopped(Stop::NoCell), 2, 0));
}

/// The bytes of a cell that remembers a number at some positions.
fn cell([label, previous, callee]: [u16; 3], entries: &[(usize, i32)]) -> Vec<u8> {
    let mut bytes = vec![0; CELL_BYTES];
    bytes[..2].copy_from_slice(&label.to_le_bytes());
    bytes[2..4].copy_from_slice(&previous.to_le_bytes());
    for (position, number) in entries {
        let entry = &mut bytes[4 + ENTRY_BYTES * position..];
        entry[0] = 1;
        entry[2..6].copy_from_slice(&number.to_le_bytes());
    }
    bytes[CELL_BYTES - 2..].copy_from_slice(&callee.to_le_bytes());
    bytes
}

#[test]
fn cells_remember() {
    let file = translated(&sheet_s());
    let mut cells = cells_lent();
    run(&file, &[], AMPLE, &mut cells);
    // The second call uses the cell again that the first gave back.
    assert_eq!(cells[..CELL_BYTES], cell([1, 0, 1], &[(0, 2)]));
    assert!(cells[CELL_BYTES..].iter().all(|&byte| byte == UNTOUCHED));
}

#[test]
fn a_parameter_used_five_times() {
    // result = five(1 + .. + 1), five(.., h) = h + h + h + h + h: 10 steps, and 39 of the sum once
    let long = (1..20).fold(number(1), |sum, _| operator(ADD, sum, number(1)));
    let h = || parameter(7);
    let five = (1..5).fold(h(), |sum, _| operator(ADD, sum, h()));
    let arguments = (0..7).map(number).chain([long]).collect();
    let file = translated(&sheet(0, &[], vec![(0, call(1, arguments)), (8, five)]));
    let mut cells = cells_lent();
    let ended = run(&file, &[], AMPLE, &mut cells);
    let expected = Ended {
        answer: Answer::Number(100),
        steps: 49,
        cells: 1,
    };
    assert_eq!(ended, expected);
    assert_eq!(cells[..CELL_BYTES], cell([0, 0, 1], &[(7, 20)]));
}

/// The fault of a sheet with constructors of arity 0 and 1.
fn fault_of(result: Expr) -> Answer {
    ended(&sheet(0, &[0, 1], vec![(0, result)]), &[], AMPLE).answer
}

#[test]
fn faults_of_sheets() {
    let none = || build(0, vec![]);
    let divided = operator(DIVIDE, number(1), number(0));
    assert_eq!(fault_of(divided), Answer::Fault(Fault::ZeroDivisor));
    let product = operator(MULTIPLY, number(46_341), number(46_341));
    assert_eq!(fault_of(product), Answer::Fault(Fault::Overflow));
    let of_constructor = operator(MULTIPLY, number(46_341), none());
    assert_eq!(fault_of(of_constructor), Answer::Fault(Fault::NumberWanted));
    let sum = operator(ADD, none(), number(1));
    assert_eq!(fault_of(sum), Answer::Fault(Fault::NumberWanted));
    let of_number = case(number(1), vec![(0, number(2))]);
    assert_eq!(fault_of(of_number), Answer::Fault(Fault::ConstructorWanted));
    let other = case(none(), vec![(1, number(2))]);
    assert_eq!(fault_of(other), Answer::Fault(Fault::NoClause));
}

/// A translation of one function without readings, with these nodes.
fn translation(formals: u16, nodes: &[(u16, &[u16])]) -> Vec<u8> {
    use kinds::translation::{FORMAL_LIST, FUNCTION, HEAD};
    let count = nodes.len() as u16;
    let mut file = Vec::new();
    put_record(&mut file, HEAD, &[0, formals, 1, count]);
    put_record(&mut file, FUNCTION, &[count, formals]);
    for _ in 0..formals {
        put_record(&mut file, FORMAL_LIST, &[0]);
    }
    for (kind, fields) in nodes {
        put_record(&mut file, *kind, fields);
    }
    file
}

#[test]
fn faults_of_translations_that_no_translator_writes() {
    use kinds::translation::{FORMAL, SELECT, TUPLE};
    let answer = |file: &[u8]| run(file, &[], AMPLE, &mut cells_lent()).answer;
    let formal = translation(1, &[(FORMAL, &[0])]);
    assert_eq!(answer(&formal), Answer::Fault(Fault::NoActual));
    let select = translation(0, &[(TUPLE, &[7]), (SELECT, &[0, 1])]);
    assert_eq!(answer(&select), Answer::Fault(Fault::NoField));
}

#[test]
fn refusals() {
    let refused = |number, place| Answer::Refused(Refusal::new(number, place));
    let joined = |sheet: &[u8], room: usize, readings: &[i32], allowances| {
        let (mut out, mut cells) = (vec![UNTOUCHED; room], cells_lent());
        let ended = translate_and_run(sheet, &mut out, readings, allowances, &mut cells);
        assert_eq!((ended.steps, ended.cells), (0, 0));
        assert!(out.iter().chain(&cells).all(|&byte| byte == UNTOUCHED));
        ended.answer
    };
    let sheet = sheet_pressure();
    let many = Allowances {
        cells: 101,
        ..AMPLE
    };
    assert_eq!(joined(&[], 200, &[], AMPLE), refused(numbers::TRUNCATED, 0));
    let cut = &sheet[..sheet.len() - 1];
    assert_eq!(
        joined(cut, 200, &[1], AMPLE),
        refused(numbers::TRUNCATED, 17)
    );
    assert_eq!(
        joined(&sheet, 10, &[1], many),
        refused(numbers::SHORT_OUTPUT, 0)
    );
    assert_eq!(
        joined(&sheet, 200, &[1], many),
        refused(numbers::BAD_READINGS, 0)
    );
    assert_eq!(
        joined(&sheet, 200, &[1, 2], many),
        refused(numbers::BAD_ALLOWANCE, 0)
    );
}

#[test]
fn rows_in_one_call() {
    // result = if r0 then f(r1) else r0 / r1; f(a) = a
    let divided = operator(DIVIDE, reading(0), reading(1));
    let result = if_else(reading(0), call(1, vec![reading(1)]), divided);
    let file = translated(&sheet(2, &[], vec![(0, result), (1, parameter(0))]));
    let readings = [1, -7, 0, 3, 0, 0];
    let (mut cells, mut in_turn) = (cells_lent(), cells_lent());
    let ended = run_rows(&file, 3, &readings, AMPLE, &mut cells).expect("not refused");
    let rows = readings.chunks_exact(2);
    let single: Vec<Ended> = rows
        .map(|row| run(&file, row, AMPLE, &mut in_turn))
        .collect();
    assert_eq!(ended, single);
    let answers: Vec<Answer> = ended.iter().map(|ended| ended.answer).collect();
    let fault = Answer::Fault(Fault::ZeroDivisor);
    assert_eq!(answers, [Answer::Number(-7), Answer::Number(0), fault]);
    // The cell of the first row stays.
    assert_eq!(cells, in_turn);
    assert_eq!(cells[..CELL_BYTES], cell([0, 0, 1], &[(0, -7)]));
    assert_eq!(cells[CELL_BYTES], UNTOUCHED);
    assert_eq!(run_rows(&file, 0, &[], AMPLE, &mut cells), Ok(vec![]));
}

#[test]
fn refused_rows() {
    let file = translated(&sheet_pressure());
    let many = Allowances {
        cells: 101,
        ..AMPLE
    };
    let refused = |file: &[u8], rows, readings: &[i32], allowances| {
        let mut cells = cells_lent();
        let ended = run_rows(file, rows, readings, allowances, &mut cells);
        assert!(cells.iter().all(|&byte| byte == UNTOUCHED));
        ended.expect_err("refused").number
    };
    let readings = [0; 2 * (MOST_ROWS as usize + 1)];
    assert_eq!(refused(&[], 1, &[], many), numbers::TRUNCATED);
    assert_eq!(refused(&file, 2, &[1, 2], many), numbers::BAD_READINGS);
    assert_eq!(refused(&file, 1, &[1, 2], many), numbers::BAD_ALLOWANCE);
    let more = refused(&file, MOST_ROWS + 1, &readings, AMPLE);
    assert_eq!(more, numbers::BAD_ALLOWANCE);
    let most = run_rows(&file, MOST_ROWS, &readings[2..], AMPLE, &mut cells_lent());
    assert_eq!(most.map(|ended| ended.len()), Ok(16));
}

#[test]
fn a_translation_and_a_short_output() {
    let sheet = sheet_s();
    let mut out = [UNTOUCHED; 104];
    assert_eq!(translate(&sheet, &mut out), Ok(100));
    assert!(out[100..].iter().all(|&byte| byte == UNTOUCHED));
    let mut short = [UNTOUCHED; 99];
    let refusal = Refusal::new(numbers::SHORT_OUTPUT, 0);
    assert_eq!(translate(&sheet, &mut short), Err(refusal));
    assert_eq!(short, [UNTOUCHED; 99]);
    assert_eq!(refusal.to_string(), "refused 8 place 0");
}

#[test]
fn the_length_of_a_translation() {
    let sheet = sheet_s();
    let short = Err(Refusal::new(numbers::SHORT_OUTPUT, 0));
    assert_eq!(translated_length(&sheet, 100), Ok(100));
    assert_eq!(translated_length(&sheet, 99), short);
    assert_eq!(translated_length(&sheet, 101), Ok(100));
    assert_eq!(translated_length(&sheet, 0), short);
    assert_eq!(translated_length(&sheet, u64::MAX), Ok(100));
    // A length whose low 32 bits are 0.
    assert_eq!(translated_length(&sheet, 1 << 32), Ok(100));
    // The sheet's own refusal comes before 8.
    let cut = Err(Refusal::new(numbers::TRUNCATED, 10));
    assert_eq!(translated_length(&sheet[..91], 0), cut);
    assert_eq!(translated_length(&sheet[..91], u64::MAX), cut);
}

#[test]
fn a_context_listing() {
    // Cell 1: label 7. Cell 2: label 264 after cell 1. Cell 3 is damaged.
    let cells = [[7, 0, 2], [264, 1, 0], [9, 3, 1]].map(|parts| cell(parts, &[(3, 5)]));
    let cells = cells.concat();
    assert_eq!(list_context(&cells, 0), Ok(vec![]));
    assert_eq!(list_context(&cells, 2), Ok(vec![264, 7]));
    let damaged = |cell| Err(Refusal::new(numbers::OUT_OF_RANGE, cell));
    assert_eq!(list_context(&cells, 3), damaged(3));
    assert_eq!(list_context(&cells, 70_000), damaged(70_000));
    let mut out = [UNTOUCHED; 5];
    assert_eq!(list_context_into(&cells, 2, &mut out), Ok(2));
    assert_eq!(out, [8, 1, 7, 0, UNTOUCHED]);
    let short = Err(Refusal::new(numbers::SHORT_OUTPUT, 0));
    assert_eq!(list_context_into(&cells, 2, &mut out[..3]), short);
}

#[test]
fn the_raw_calls_give_code_and_record() {
    let mut out = vec![0; TRANSLATION_BYTES];
    let mut record = [UNTOUCHED; ANSWER_BYTES + 1];
    let sheet = sheet_s();
    let code = raw::translate_and_run(&sheet, &mut out, &[], AMPLE, &mut cells_lent(), &mut record);
    assert_eq!((code, record[ANSWER_BYTES]), (0, UNTOUCHED));
    let expected = Record {
        outcome: numbers::NUMBER,
        value: 10,
        steps: 11,
        node: 0,
        context: 0,
        cells: 1,
    };
    assert_eq!(Record::from_bytes(&record), Some(expected));
    let code = raw::run_rows(&out[..100], 1, &[], AMPLE, &mut cells_lent(), &mut record);
    assert_eq!((code, record[ANSWER_BYTES]), (20, UNTOUCHED));
    let short = &mut record[..ANSWER_BYTES - 1];
    let code = raw::run(&out[..100], &[], AMPLE, &mut cells_lent(), short);
    let refusal = Refusal::new(numbers::SHORT_OUTPUT, 0);
    assert_eq!(raw::result(code), Err(refusal));
    let code = raw::run_rows(&out[..100], 1, &[], AMPLE, &mut cells_lent(), short);
    assert_eq!(raw::result(code), Err(refusal));
}
