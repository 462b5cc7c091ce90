//! The search for a reading: the smallest value that gives a number, the runs
//! that do not count, the refusals in their order, and what is left in the cells.

use zifnora::build_sheet::*;
use zifnora::sizes::{CELL_BYTES, MOST_VALUES, TRANSLATION_BYTES};
use zifnora::{find_reading, numbers, raw, run, translate};
use zifnora::{Allowances, Answer, Fault, Refusal, Search, Stop};

const AMPLE: Allowances = Allowances {
    steps: 1000,
    nesting: 100,
    cells: 10,
};

/// More cells than are lent.
const MANY: Allowances = Allowances { cells: 11, ..AMPLE };

/// A byte that no buffer here gets by a call.
const UNTOUCHED: u8 = 0xEE;

fn cells_lent() -> Vec<u8> {
    vec![UNTOUCHED; CELL_BYTES * AMPLE.cells as usize]
}

fn translated(readings: u16, functions: Vec<(u16, Expr)>) -> Vec<u8> {
    let sheet = Program {
        readings,
        arities: vec![0, 0],
        functions,
    };
    let mut out = vec![0; TRANSLATION_BYTES];
    let length = translate(&sheet.encode(), &mut out).expect("accepted");
    out.truncate(length);
    out
}

/// result = cold(r0, r1), cold(p, t) = if t < 20 then p else p - (t - 20) * 2.
fn pressure() -> Vec<u8> {
    let (p, t) = (|| parameter(0), || parameter(1));
    let above = operator(SUBTRACT, t(), number(20));
    let warm = operator(SUBTRACT, p(), operator(MULTIPLY, above, number(2)));
    let cold = if_else(operator(LESS, t(), number(20)), p(), warm);
    translated(
        2,
        vec![(0, call(1, vec![reading(0), reading(1)])), (2, cold)],
    )
}

/// result = r0.
fn same() -> Vec<u8> {
    translated(1, vec![(0, reading(0))])
}

/// A search with the translation of `same`.
fn found_same(lowest: i32, highest: i32, wanted: i32) -> Found {
    found(&same(), &[0], search(0, lowest, highest, wanted), AMPLE)
}

fn search(position: u32, lowest: i32, highest: i32, wanted: i32) -> Search {
    Search {
        position,
        lowest,
        highest,
        wanted,
    }
}

type Found = Result<Option<i32>, Refusal>;

/// What a search answers. It writes no reading, and leaves in the cells what the
/// single runs in turn leave, up to the value found or the highest.
fn found(file: &[u8], readings: &[i32], search: Search, allowances: Allowances) -> Found {
    let (mut cells, mut in_turn) = (cells_lent(), cells_lent());
    let lent = readings.to_vec();
    let answer = find_reading(file, &lent, search, allowances, &mut cells);
    assert_eq!(lent, readings);
    if let Ok(value) = answer {
        let mut readings = readings.to_vec();
        for tried in search.lowest..=value.unwrap_or(search.highest) {
            readings[search.position as usize] = tried;
            let ended = run(file, &readings, allowances, &mut in_turn);
            let does = ended.answer == Answer::Number(search.wanted);
            assert_eq!(does, value == Some(tried), "value {tried}");
        }
    }
    assert_eq!(cells, in_turn);
    answer
}

fn refused(number: u16, place: u32) -> Found {
    Err(Refusal::new(number, place))
}

#[test]
fn the_fill_pressure_for_a_wanted_figure() {
    let file = pressure();
    // At 31 degrees 845 are shown as 823, whatever the lent reading is.
    for given in [0, 845, i32::MIN] {
        let at = |lowest, highest| search(0, lowest, highest, 823);
        let answer = |search| found(&file, &[given, 31], search, AMPLE);
        assert_eq!(answer(at(800, 900)), Ok(Some(845)));
        assert_eq!(answer(at(845, 900)), Ok(Some(845)));
        assert_eq!(answer(at(800, 845)), Ok(Some(845)));
        assert_eq!(answer(at(845, 845)), Ok(Some(845)));
        assert_eq!(answer(at(800, 844)), Ok(None));
        assert_eq!(answer(at(846, 846)), Ok(None));
    }
    // The temperature for it: 31 degrees, and below 20 none.
    let temperature = |lowest, highest| search(1, lowest, highest, 823);
    let answer = |search| found(&file, &[845, 0], search, AMPLE);
    assert_eq!(answer(temperature(-40, 80)), Ok(Some(31)));
    assert_eq!(answer(temperature(-40, 19)), Ok(None));
}

#[test]
fn the_smallest_of_several() {
    // result = r0 * r0; result = 7.
    let square = translated(1, vec![(0, operator(MULTIPLY, reading(0), reading(0)))]);
    let answer = |lowest| found(&square, &[3], search(0, lowest, 9, 9), AMPLE);
    assert_eq!(answer(-9), Ok(Some(-3)));
    assert_eq!(answer(-2), Ok(Some(3)));
    let seven = translated(1, vec![(0, number(7))]);
    let answer = |wanted| found(&seven, &[0], search(0, -5, 5, wanted), AMPLE);
    assert_eq!(answer(7), Ok(Some(-5)));
    assert_eq!(answer(0), Ok(None));
}

#[test]
fn ranges_of_one_and_of_the_most() {
    let answer = found_same;
    assert_eq!(answer(5, 5, 5), Ok(Some(5)));
    assert_eq!(answer(5, 5, 6), Ok(None));
    let most = MOST_VALUES as i32;
    assert_eq!(answer(-1, most - 2, most - 2), Ok(Some(most - 2)));
    assert_eq!(answer(-1, most - 2, -1), Ok(Some(-1)));
    assert_eq!(answer(-1, most - 2, most - 1), Ok(None));
    assert_eq!(answer(-1, most - 1, -1), refused(numbers::BAD_RANGE, 0));
}

#[test]
fn both_ends_of_the_numbers() {
    let answer = found_same;
    let (least, greatest, most) = (i32::MIN, i32::MAX, MOST_VALUES as i32);
    for wanted in [least, least + most - 1] {
        assert_eq!(answer(least, least + most - 1, wanted), Ok(Some(wanted)));
    }
    for wanted in [greatest, greatest - most + 1] {
        assert_eq!(
            answer(greatest - most + 1, greatest, wanted),
            Ok(Some(wanted))
        );
    }
    assert_eq!(answer(greatest, greatest, greatest), Ok(Some(greatest)));
    assert_eq!(answer(greatest - 3, greatest, least), Ok(None));
    let bad = refused(numbers::BAD_RANGE, 0);
    // So many that fewer are left on 32 bits.
    for (lowest, highest) in [(least, greatest), (least, -1), (-1, greatest)] {
        assert_eq!(answer(lowest, highest, 0), bad);
    }
    assert_eq!(answer(least, least + most, least), bad);
    assert_eq!(answer(greatest - most, greatest, greatest), bad);
    assert_eq!(answer(greatest, least, greatest), bad);
}

#[test]
fn a_bad_range() {
    let file = pressure();
    let bad = refused(numbers::BAD_RANGE, 0);
    let answer = |search| found(&file, &[845, 31], search, AMPLE);
    assert_eq!(answer(search(0, 846, 845, 823)), bad);
    assert_eq!(answer(search(0, 1, 1025, 823)), bad);
    assert_eq!(answer(search(1, 31, 31, 823)), Ok(Some(31)));
    for position in [2, 3, 32, 256, 65_536, 1 << 31, u32::MAX] {
        assert_eq!(answer(search(position, 845, 845, 823)), bad);
    }
    // Without readings there is no position.
    let none = translated(0, vec![(0, number(7))]);
    for position in [0, 1] {
        let search = search(position, 0, 0, 7);
        assert_eq!(found(&none, &[], search, AMPLE), bad);
    }
}

#[test]
fn after_the_files_refusals_and_9_and_10() {
    let file = pressure();
    let bad = search(2, 1, 0, 823);
    let cut = &file[..file.len() - 1];
    let records = refused(numbers::TRUNCATED, 19);
    assert_eq!(found(cut, &[845], bad, MANY), records);
    let readings = refused(numbers::BAD_READINGS, 0);
    assert_eq!(found(&file, &[845], bad, MANY), readings);
    assert_eq!(found(&file, &[845, 31, 0], bad, MANY), readings);
    let allowance = refused(numbers::BAD_ALLOWANCE, 0);
    let two = [845, 31];
    assert_eq!(found(&file, &two, bad, MANY), allowance);
    let none = Allowances {
        nesting: 0,
        ..AMPLE
    };
    assert_eq!(found(&file, &two, bad, none), allowance);
    assert_eq!(
        found(&file, &two, bad, AMPLE),
        refused(numbers::BAD_RANGE, 0)
    );
}

#[test]
fn a_stop_or_a_fault_does_not_count() {
    // result = down(r0), down(n) = if n < 1 then 8 / n else down(n - 1).
    let n = || parameter(0);
    let next = call(1, vec![operator(SUBTRACT, n(), number(1))]);
    let ends = operator(LESS, n(), number(1));
    let body = if_else(ends, operator(DIVIDE, number(8), n()), next);
    let file = translated(1, vec![(0, call(1, vec![reading(0)])), (1, body)]);
    let few = Allowances { steps: 8, ..AMPLE };
    let ends = [
        (AMPLE, -9, Answer::Number(0)),
        (AMPLE, 0, Answer::Fault(Fault::ZeroDivisor)),
        (few, -9, Answer::Stopped(Stop::NoStep)),
    ];
    for (allowances, value, answer) in ends {
        let ended = run(&file, &[value], allowances, &mut cells_lent());
        assert_eq!(ended.answer, answer);
        let alone = search(0, value, value, 0);
        let does = answer == Answer::Number(0);
        let expected = Ok(does.then_some(value));
        assert_eq!(found(&file, &[0], alone, allowances), expected);
    }
}

#[test]
fn runs_go_on_after_a_stop_and_a_fault() {
    // result = 12 / down(0 - r0), down(n) = if n < 3 then n else down(n).
    let n = || parameter(0);
    let body = if_else(operator(LESS, n(), number(3)), n(), call(1, vec![n()]));
    let down = call(1, vec![operator(SUBTRACT, number(0), reading(0))]);
    let result = operator(DIVIDE, number(12), down);
    let file = translated(1, vec![(0, result), (1, body)]);
    let answer = |value| run(&file, &[value], AMPLE, &mut cells_lent()).answer;
    assert_eq!(answer(-3), Answer::Stopped(Stop::NoCell));
    assert_eq!(answer(0), Answer::Fault(Fault::ZeroDivisor));
    let search = |wanted| search(0, -4, 4, wanted);
    assert_eq!(found(&file, &[0], search(6), AMPLE), Ok(Some(-2)));
    assert_eq!(found(&file, &[0], search(-3), AMPLE), Ok(Some(4)));
    assert_eq!(found(&file, &[0], search(0), AMPLE), Ok(None));
}

#[test]
fn a_constructors_tag_does_not_count() {
    // result = if r0 < 5 then One else r0 - 4, with One of tag 1.
    let low = operator(LESS, reading(0), number(5));
    let high = operator(SUBTRACT, reading(0), number(4));
    let file = translated(1, vec![(0, if_else(low, build(1, vec![]), high))]);
    let ended = run(&file, &[4], AMPLE, &mut cells_lent());
    assert!(matches!(ended.answer, Answer::Constructor { tag: 1, .. }));
    assert_eq!(found(&file, &[0], search(0, 0, 4, 1), AMPLE), Ok(None));
    assert_eq!(found(&file, &[0], search(0, 0, 9, 1), AMPLE), Ok(Some(5)));
}

#[test]
fn the_cells_are_those_of_the_runs_in_turn() {
    // result = down(r0), down(n) = if n < 1 then n else down(n - 1) + 0.
    let n = || parameter(0);
    let next = call(1, vec![operator(SUBTRACT, n(), number(1))]);
    let next = operator(ADD, next, number(0));
    let body = if_else(operator(LESS, n(), number(1)), n(), next);
    let file = translated(1, vec![(0, call(1, vec![reading(0)])), (1, body)]);
    let mut cells = cells_lent();
    let all = search(0, 1, 3, 5);
    assert_eq!(find_reading(&file, &[9], all, AMPLE, &mut cells), Ok(None));
    // Four cells of the last run, and none past them.
    let written = cells.iter().rposition(|&byte| byte != UNTOUCHED);
    assert_eq!(written, Some(4 * CELL_BYTES - 1));
    // A shorter run after it leaves them past its own.
    let before = cells.clone();
    let one = search(0, -1, 0, 0);
    assert_eq!(
        find_reading(&file, &[9], one, AMPLE, &mut cells),
        Ok(Some(0))
    );
    assert_eq!(cells[CELL_BYTES..], before[CELL_BYTES..]);
    let mut last = before.clone();
    run(&file, &[0], AMPLE, &mut last);
    assert_eq!(cells, last);
}

#[test]
fn the_raw_call_gives_one_code() {
    let file = same();
    let code = |search| raw::find_reading(&file, &[0], search, AMPLE, &mut cells_lent());
    assert_eq!(code(search(0, 7, 9, 8)), 8);
    // A negative value has the bits of its number, and none above them.
    assert_eq!(code(search(0, -3, 9, -2)), 0xFFFF_FFFE);
    assert_eq!(code(search(0, i32::MIN, i32::MIN, i32::MIN)), 1 << 31);
    assert_eq!(code(search(0, 7, 9, 10)), 24 << 32);
    assert_eq!(code(search(1, 7, 9, 8)), 23 << 32);
    assert_eq!(raw::found(24 << 32), Ok(None));
    assert_eq!(raw::found(0xFFFF_FFFE), Ok(Some(-2)));
    assert_eq!(raw::found(5 << 32 | 7), refused(numbers::OUT_OF_RANGE, 7));
}
