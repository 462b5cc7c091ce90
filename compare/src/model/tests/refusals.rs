//! Refusals of files, of runs and of listings, with their places.

use super::*;

#[test]
fn refusals_of_files() {
    assert_eq!(translated(&[]), Err(Refusal::new(TRUNCATED, 0)));
    assert_eq!(translated(&vec![0; 32_769]), Err(Refusal::new(OVERSIZE, 0)));
    assert_eq!(
        translated(&vec![0; 32_768]),
        Err(Refusal::new(BAD_RECORD, 0))
    );
    let nine = vec![(0, number(0)), (0, call(0, (0..9).map(number).collect()))];
    assert_eq!(
        translated(&program(&[], nine).encode()),
        Err(Refusal::new(BAD_RECORD, 13))
    );
    let sheet = sheet_s();
    for cut in 0..sheet.len() {
        assert_eq!(translated(&sheet[..cut]).unwrap_err().number, TRUNCATED);
    }
    let mut longer = sheet.clone();
    longer.push(0);
    assert_eq!(translated(&longer), Err(Refusal::new(BAD_RECORD, 11)));
    let with = |at: usize, value: u16| {
        let mut changed = sheet_s();
        changed[at..at + 2].copy_from_slice(&value.to_le_bytes());
        translated(&changed).map(|_| ())
    };
    // Byte 4 is the count of readings, byte 14 the kind of record 1, bytes 16
    // and 18 its parameters and its node count.
    assert_eq!(with(4, 33), Err(Refusal::new(BAD_COUNT, 0)));
    assert_eq!(with(14, 4), Err(Refusal::new(BAD_RECORD, 1)));
    assert_eq!(with(16, 1), Err(Refusal::new(BAD_ARGUMENTS, 1)));
    assert_eq!(with(18, 4), Err(Refusal::new(BAD_COUNT, 2)));
    assert_eq!(with(18, 0), Err(Refusal::new(BAD_COUNT, 1)));
    // Node 1 (record 4) is the first call; its fields start at byte 40.
    assert_eq!(with(40, 2), Err(Refusal::new(OUT_OF_RANGE, 4)));
    assert_eq!(with(40, 0), Err(Refusal::new(BAD_ARGUMENTS, 4)));
    assert_eq!(with(42, 8), Err(Refusal::new(OUT_OF_RANGE, 4)));
    assert_eq!(with(42, 1), Err(Refusal::new(BAD_TREE, 3)));
}

#[test]
fn pattern_rules() {
    let refused = |functions| translated(&program(&[1, 2], functions).encode()).map(|_| ());
    let k0 = || build(0, vec![number(1)]);
    assert_eq!(
        refused(vec![(0, case(k0(), vec![(0, pattern(0))]))]),
        Ok(())
    );
    assert_eq!(
        refused(vec![(0, case(k0(), vec![(0, pattern(1))]))]),
        Err(Refusal::new(BAD_TREE, 6))
    );
    assert_eq!(
        refused(vec![(0, case(pattern(0), vec![(0, number(1))]))]),
        Err(Refusal::new(BAD_TREE, 4))
    );
    assert_eq!(
        refused(vec![(0, pattern(0))]),
        Err(Refusal::new(BAD_TREE, 4))
    );
    let order = vec![(1, number(1)), (1, number(2))];
    assert_eq!(
        refused(vec![(0, case(k0(), order))]),
        Err(Refusal::new(BAD_TREE, 8))
    );
    let inner = case(k0(), vec![(0, number(1))]);
    assert_eq!(
        refused(vec![(0, operator(ADD, inner, number(2)))]),
        Err(Refusal::new(BAD_TREE, 7))
    );
}

#[test]
fn refusals_of_runs() {
    let sheet = sheet_s();
    let refused = |number| Answer {
        outcome: number,
        ..Answer::default()
    };
    assert_eq!(run(&sheet, 0, 1, 0), ended(NO_STEP, 0, 0));
    assert_eq!(run(&sheet, 9, 0, 0), refused(BAD_ALLOWANCE));
    assert_eq!(run(&sheet, 9, 1025, 0), refused(BAD_ALLOWANCE));
    assert_eq!(run(&sheet, 13, 1024, 960), answered(10, 11, 1));
    assert_eq!(run(&sheet, 13, 1024, 961), refused(BAD_ALLOWANCE));
    let one_each = Allowances {
        steps: 1,
        nesting: 1,
        cells: 1,
    };
    let all = |out: usize, readings: &[i32], cells: usize| {
        let (mut out, mut cells) = (vec![0; out], vec![0; cells]);
        Correct.translate_and_run(&sheet, &mut out, readings, one_each, &mut cells)
    };
    assert_eq!(all(99, &[1], 67), refused(SHORT_OUTPUT));
    assert_eq!(all(100, &[1], 67), refused(BAD_READINGS));
    assert_eq!(all(100, &[], 67), refused(BAD_ALLOWANCE));
    assert_eq!(all(100, &[], 68), ended(NO_STEP, 1, 0));
}

#[test]
fn listings() {
    let list = |cells: &[u8], cell, room: usize| {
        let mut out = vec![0xEE; room];
        let answer = Correct.list(cells, cell, &mut out);
        (answer, out)
    };
    let mut cells = [
        cell([7, 0, 2], &[]),
        cell([8, 1, 9], &[]),
        cell([9, 3, 0], &[]),
    ]
    .concat();
    cells[69] = 1;
    assert_eq!(list(&cells, 0, 0), (Ok(0), vec![]));
    assert_eq!(list(&cells, 1, 3), (Ok(1), vec![7, 0, 0xEE]));
    assert_eq!(list(&cells, 2, 4), (Ok(2), vec![8, 1, 7, 0]));
    assert_eq!(
        list(&cells, 2, 3),
        (Err(Refusal::new(SHORT_OUTPUT, 0)), vec![0xEE; 3])
    );
    assert_eq!(list(&cells, 3, 9).0, Err(Refusal::new(OUT_OF_RANGE, 3)));
    assert_eq!(list(&cells, 4, 9).0, Err(Refusal::new(OUT_OF_RANGE, 4)));
    assert_eq!(
        list(&cells[..135], 2, 9).0,
        Err(Refusal::new(OUT_OF_RANGE, 2))
    );
}
