//! The driver's view (document 02, request 10): what is shown, the refusals and
//! their order, and which records look alike.

use super::*;
use crate::model::answer::RECORD;
use crate::model::ViewBehaviour;

const NOTHING: [u8; 6] = [1, 0, 0, 0, 0, 0];

/// A record whose other fields are no part of the outcome and the value.
fn record(outcome: u16, value: i32) -> [u8; RECORD] {
    let answer = Answer {
        outcome,
        value,
        steps: 0x5152_5354,
        node: 0x6162,
        context: 0x7172,
        cells: 0x8182,
    };
    answer.record()
}

/// The view in seven bytes, of which the last stays as it was.
fn viewed(record: &[u8]) -> [u8; 6] {
    let mut out = [0xEE; 7];
    assert_eq!(Correct.driver_view(record, &mut out), Ok(6));
    let [view @ .., past] = out;
    assert_eq!(past, 0xEE);
    view
}

/// The number of a refused view, which writes nothing.
fn refused(record: &[u8], room: usize) -> u16 {
    let mut out = vec![0xEE; room];
    let refusal = Correct.driver_view(record, &mut out).expect_err("refused");
    assert_eq!((refusal.place, out), (0, vec![0xEE; room]));
    refusal.number
}

#[test]
fn a_number_is_shown_and_nothing_else() {
    let values = [
        (0, [0, 0, 0, 0]),
        (-1, [255, 255, 255, 255]),
        (0x0102_0304, [4, 3, 2, 1]),
        (i32::MIN, [0, 0, 0, 0x80]),
        (i32::MAX, [255, 255, 255, 0x7F]),
    ];
    for (value, [a, b, c, d]) in values {
        assert_eq!(viewed(&record(0, value)), [0, 0, a, b, c, d]);
        for outcome in 1..=u16::MAX {
            assert_eq!(viewed(&record(outcome, value)), NOTHING);
        }
    }
}

#[test]
fn refusals_of_views() {
    let right = record(0, 7);
    let mut bad: Vec<Vec<u8>> = (0..RECORD).map(|end| right[..end].to_vec()).collect();
    for length in [21, 40, 60, 65_536, 65_556] {
        let mut longer = right.to_vec();
        longer.resize(length, 0);
        bad.push(longer.clone());
        longer[..2].copy_from_slice(&(length as u16).to_le_bytes());
        bad.push(longer);
    }
    for bit in 0..32 {
        let mut field = right.to_vec();
        field[bit / 8] ^= 1 << (bit % 8);
        bad.push(field);
    }
    for record in &bad {
        for room in [0, 5, 6, 7, 20] {
            assert_eq!(refused(record, room), BAD_RECORD);
        }
    }
    for room in 0..6 {
        assert_eq!(refused(&right, room), SHORT_OUTPUT);
        assert_eq!(refused(&record(CONSTRUCTOR, 7), room), SHORT_OUTPUT);
    }
}

#[test]
fn records_that_look_alike() {
    let mut records = Vec::new();
    for outcome in [NUMBER, NUMBER, CONSTRUCTOR, NO_STEP, OVERFLOW, 256] {
        for value in [0, 1, -1, 65_536, i32::MIN] {
            records.push(record(outcome, value));
        }
    }
    // The first of two equal ones with other fields.
    for record in &mut records[..5] {
        record[10..].fill(0);
    }
    let number = |record: &[u8]| match record[4..6] {
        [0, 0] => Some(record[6..10].to_vec()),
        _ => None,
    };
    for one in &records {
        for other in &records {
            let alike = number(one) == number(other);
            assert_eq!(viewed(one) == viewed(other), alike);
        }
    }
}

#[test]
fn views_of_runs() {
    let s = sheet_s();
    assert_eq!(viewed(&run(&s, 50, 10, 4).record()), [0, 0, 10, 0, 0, 0]);
    // Stops, and refusals.
    for answer in [run(&s, 3, 10, 4), run(&s, 50, 0, 4), run(&[], 50, 10, 4)] {
        assert_ne!(answer.outcome, NUMBER);
        assert_eq!(viewed(&answer.record()), NOTHING);
    }
    let second = program(&[0, 1], vec![(0, build(1, vec![number(7)]))]);
    let constructor = run(&second.encode(), 50, 10, 4);
    assert_eq!((constructor.outcome, constructor.value), (CONSTRUCTOR, 1));
    assert_eq!(viewed(&constructor.record()), NOTHING);
}
