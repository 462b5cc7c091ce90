//! The driver's view of an answer record: what is shown of each outcome, the
//! refusals and their order, and the bytes that stay as they were.

use zifnora::build_sheet::*;
use zifnora::kinds::{self, view};
use zifnora::sizes::{ANSWER_BYTES, CELL_BYTES, TRANSLATION_BYTES, VIEW_BYTES};
use zifnora::{driver_view, numbers, raw, Allowances, Record, Refusal};

/// A byte that no buffer here gets by a call.
const UNTOUCHED: u8 = 0xEE;

/// Every outcome of the table that is no number.
fn others() -> impl Iterator<Item = u16> {
    (numbers::TRUNCATED..=numbers::CLOSED_READING).chain([numbers::CONSTRUCTOR])
}

/// A record whose other fields are no part of the outcome and the value.
fn record(outcome: u16, value: i32) -> Vec<u8> {
    let words = |words: &[u16]| -> Vec<u8> {
        let bytes = words.iter().flat_map(|word| word.to_le_bytes());
        bytes.collect()
    };
    let mut bytes = words(&[ANSWER_BYTES as u16, kinds::ANSWER, outcome]);
    bytes.extend(value.to_le_bytes());
    bytes.extend(0x5152_5354_u32.to_le_bytes());
    bytes.extend(words(&[0x6162, 0x7172, 0x8182]));
    bytes
}

/// The six bytes of a number, and those of anything else.
fn shown(number: i32) -> [u8; VIEW_BYTES] {
    let [a, b, c, d] = number.to_le_bytes();
    [view::NUMBER as u8, 0, a, b, c, d]
}

const NOTHING: [u8; VIEW_BYTES] = [view::EMPTY as u8, 0, 0, 0, 0, 0];

/// The view of a record in as many bytes as it has.
fn viewed(record: &[u8]) -> [u8; VIEW_BYTES] {
    let mut out = [UNTOUCHED; VIEW_BYTES];
    assert_eq!(raw::driver_view(record, &mut out), VIEW_BYTES as u64);
    out
}

/// The number of a refusal, which has place 0 and writes nothing.
fn refused(record: &[u8], room: usize) -> u16 {
    let mut out = vec![UNTOUCHED; room];
    let code = raw::driver_view(record, &mut out);
    let refusal = raw::result(code).expect_err("refused");
    assert_eq!(code, u64::from(refusal.number) << 32);
    assert_eq!(out, vec![UNTOUCHED; room]);
    refusal.number
}

#[test]
fn numbers_are_shown() {
    let values = [0, 1, -1, 845, 0x0102_0304, 65_536, i32::MIN, i32::MAX];
    for value in values {
        let record = record(numbers::NUMBER, value);
        assert_eq!(viewed(&record), shown(value));
        assert_eq!(driver_view(&record), Ok(Some(value)));
    }
}

#[test]
fn nothing_else_is_shown() {
    assert_eq!(others().count(), 22);
    // Besides the table: numbers that are none of it, and 0 and 100 with their
    // bytes exchanged or one of them set.
    let unknown = [22, 99, 101, 256, 0x6400, 0x8000, u16::MAX];
    for outcome in others().chain(unknown) {
        for value in [0, 3, -1, 0x0102_0304, i32::MIN] {
            let record = record(outcome, value);
            assert_eq!(viewed(&record), NOTHING, "outcome {outcome}");
            assert_eq!(driver_view(&record), Ok(None));
        }
    }
}

#[test]
fn the_other_fields_say_nothing() {
    for (outcome, view) in [
        (numbers::NUMBER, shown(7)),
        (numbers::CONSTRUCTOR, NOTHING),
        (numbers::NO_STEP, NOTHING),
    ] {
        for at in 10..ANSWER_BYTES {
            let mut record = record(outcome, 7);
            record[at] ^= 0xFF;
            assert_eq!(viewed(&record), view);
        }
    }
}

#[test]
fn records_of_another_length_or_kind() {
    for outcome in [numbers::NUMBER, numbers::CONSTRUCTOR] {
        let right = record(outcome, 7);
        let mut bad = vec![right[..0].to_vec(), right[..19].to_vec()];
        bad.push([&right[..], &[0]].concat());
        bad.push([&right[..], &right[..]].concat());
        for at in 0..4 {
            let mut field = right.clone();
            field[at] ^= 1;
            bad.push(field);
        }
        // A length field that is that of the lent bytes.
        for length in [19, 21] {
            let mut whole = right.clone();
            whole.resize(length, 0);
            whole[0] = length as u8;
            bad.push(whole);
        }
        for record in bad {
            // 3 is before 8.
            for room in [0, 5, 6, 7] {
                assert_eq!(refused(&record, room), numbers::BAD_RECORD);
            }
            let refusal = Refusal::new(numbers::BAD_RECORD, 0);
            assert_eq!(driver_view(&record), Err(refusal));
        }
    }
}

#[test]
fn outputs_of_other_lengths() {
    let five = record(numbers::NUMBER, 5);
    let constructor = record(numbers::CONSTRUCTOR, 5);
    for (record, view) in [(five, shown(5)), (constructor, NOTHING)] {
        for room in 0..VIEW_BYTES {
            assert_eq!(refused(&record, room), numbers::SHORT_OUTPUT);
        }
        let mut out = [UNTOUCHED; VIEW_BYTES + 1];
        assert_eq!(raw::driver_view(&record, &mut out), VIEW_BYTES as u64);
        assert_eq!(
            (&out[..VIEW_BYTES], out[VIEW_BYTES]),
            (&view[..], UNTOUCHED)
        );
    }
}

/// The record of a run of a sheet with one reading and two constructors
/// without fields.
fn left_by_run(result: Expr, readings: &[i32]) -> [u8; ANSWER_BYTES] {
    let sheet = Program {
        readings: 1,
        arities: vec![0, 0],
        functions: vec![(0, result)],
    };
    let allowances = Allowances {
        steps: 100,
        nesting: 10,
        cells: 1,
    };
    let (mut out, mut cells) = (vec![0; TRANSLATION_BYTES], [0; CELL_BYTES]);
    let mut record = [UNTOUCHED; ANSWER_BYTES];
    let sheet = sheet.encode();
    let code = raw::translate_and_run(
        &sheet,
        &mut out,
        readings,
        allowances,
        &mut cells,
        &mut record,
    );
    assert_eq!(code, 0);
    record
}

#[test]
fn records_that_runs_left() {
    let less = || operator(SUBTRACT, reading(0), number(1000));
    let ratio = || operator(DIVIDE, number(1), reading(0));
    for (result, readings, outcome, view) in [
        (less(), &[845][..], numbers::NUMBER, shown(-155)),
        (build(1, vec![]), &[845], numbers::CONSTRUCTOR, NOTHING),
        (ratio(), &[0], numbers::ZERO_DIVISOR, NOTHING),
        (less(), &[], numbers::BAD_READINGS, NOTHING),
    ] {
        let record = left_by_run(result, readings);
        let decoded = Record::from_bytes(&record).expect("an answer record");
        assert_eq!(decoded.outcome, outcome);
        assert_eq!(viewed(&record), view);
    }
}
