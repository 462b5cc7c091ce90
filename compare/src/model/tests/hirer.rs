//! The run for a hirer (document 02, request 5): what a set closes, the place,
//! the order of refusals, and the owner's run else.

use super::*;
use crate::model::hirer::Hire;
use crate::model::run::run as owners_run;
use crate::model::HirerBehaviour;

const FEW: Allowances = Allowances {
    steps: 40,
    nesting: 20,
    cells: 4,
};

/// More cells than are lent.
const MANY: Allowances = Allowances { cells: 5, ..FEW };

/// result = if r2 < 5 then id(r2) else r0, id(x) = x, with four readings: node
/// 0 and node 3 are reading 2, node 5 is reading 0; node 0 is record 4.
fn axles() -> Vec<u8> {
    let cold = operator(LESS, reading(2), number(5));
    let result = if_else(cold, call(1, vec![reading(2)]), reading(0));
    let sheet = Program {
        readings: 4,
        arities: vec![],
        functions: vec![(0, result), (1, parameter(0))],
    };
    translated(&sheet.encode()).expect("accepted")
}

/// The hirer's run with four cells lent: its answer and the cells.
fn hired(file: &[u8], set: u32, readings: &[i32], allowances: Allowances) -> (Answer, Vec<u8>) {
    let mut lent = vec![0xEE; 4 * 68];
    let hire = Hire {
        set,
        readings,
        allowances,
    };
    (Correct.run_for_hirer(file, hire, &mut lent), lent)
}

/// A refused run, which writes nothing.
fn refused(number: u16, place: u32) -> (Answer, Vec<u8>) {
    let refusal = Refusal::new(number, place);
    (Answer::refused(refusal), vec![0xEE; 4 * 68])
}

#[test]
fn a_set_that_covers_the_nodes_gives_the_owners_run() {
    let file = axles();
    for (readings, expected) in [
        ([7, 0, 3, 0], answered(3, 7, 1)),
        ([7, 0, 9, 0], answered(7, 5, 0)),
    ] {
        let mut lent = vec![0xEE; 4 * 68];
        let owners = owners_run(&Correct, &file, &readings, FEW, &mut lent);
        assert_eq!(owners, expected);
        // The readings that are used; with others; with bits past the four.
        for set in [0b0101, 0b1111, 0b0101 | 1 << 4 | 1 << 31, u32::MAX] {
            let again = hired(&file, set, &readings, FEW);
            assert_eq!(again, (owners, lent.clone()));
        }
    }
}

#[test]
fn the_first_closed_node_is_the_place() {
    let file = axles();
    let (short, long) = ([7, 0, 3, 0], [7, 0, 9, 0]);
    // Reading 0 is closed, not reached and then reached.
    for readings in [short, long] {
        let place = refused(CLOSED_READING, 4 + 5);
        assert_eq!(hired(&file, 0b1110, &readings, FEW), place);
    }
    // Reading 2 is closed, and both are.
    for set in [0b1011, 0, !0b0101] {
        let place = refused(CLOSED_READING, 4);
        assert_eq!(hired(&file, set, &long, FEW), place);
    }
}

#[test]
fn closed_after_5_and_before_9_and_10() {
    let mut file = axles();
    let closed = refused(CLOSED_READING, 4);
    assert_eq!(hired(&file, 0, &[], MANY), closed);
    let right = [7, 0, 3, 0];
    assert_eq!(hired(&file, u32::MAX, &[], MANY), refused(BAD_READINGS, 0));
    let many = hired(&file, u32::MAX, &right, MANY);
    assert_eq!(many, refused(BAD_ALLOWANCE, 0));
    // The last node, node 7, names formal 1.
    let last = file.len() - 2;
    file[last] = 1;
    let dangling = refused(OUT_OF_RANGE, 4 + 7);
    assert_eq!(hired(&file, 0, &right, FEW), dangling);
    assert_eq!(hired(&[], 0, &right, FEW), refused(TRUNCATED, 0));
}

#[test]
fn closed_readings_are_not_seen() {
    let file = axles();
    for (set, other) in [(0b0101, [7, 1, 3, 2]), (0b0001, [7, 1, 9, 2])] {
        for allowances in [FEW, MANY] {
            let one = hired(&file, set, &[7, 0, 3, 0], allowances);
            assert_eq!(one, hired(&file, set, &other, allowances));
        }
    }
}

#[test]
fn the_last_of_32_readings() {
    let sheet = Program {
        readings: 32,
        arities: vec![],
        functions: vec![(0, reading(31))],
    };
    let file = translated(&sheet.encode()).unwrap();
    let readings: Vec<i32> = (0..32).collect();
    assert_eq!(hired(&file, 1 << 31, &readings, FEW).0, answered(31, 1, 0));
    let closed = refused(CLOSED_READING, 2);
    assert_eq!(hired(&file, !(1 << 31), &readings, FEW), closed);
}
