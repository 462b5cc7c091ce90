//! Typed sheets (document 02, request 11): how they run and translate, and where
//! those with a wrong type are refused.

use zifnora::build_sheet::*;
use zifnora::kinds::sheet::{CONSTRUCTOR, FUNCTION};
use zifnora::sizes::{CELL_BYTES, MOST_TYPES, TRANSLATION_BYTES};
use zifnora::{numbers, translate, translate_and_run, translated_length};
use zifnora::{Allowances, Answer, Ended, Refusal};

const NIL: u16 = 0;
const CONS: u16 = 1;

/// The type of lists.
const LIST: u16 = MOST_TYPES as u16;

/// result = sum(make(3)), sum(l) = case l of Nil -> 0, Cons(n, l) -> n + sum(l),
/// make(n) = if n then Cons(n, make(n - 1)) else Nil. The constructors are records
/// 1 and 2, the functions 3 to 5; nodes start at record 6: those of result at 6, of
/// sum at 9, of make at 16.
fn lists() -> TypedProgram {
    let rest = operator(ADD, pattern(0), call(1, vec![pattern(1)]));
    let sum = case(parameter(0), vec![(NIL, number(0)), (CONS, rest)]);
    let less = operator(SUBTRACT, parameter(0), number(1));
    let longer = build(CONS, vec![parameter(0), call(2, vec![less])]);
    let make = if_else(parameter(0), longer, build(NIL, vec![]));
    let result = call(1, vec![call(2, vec![number(3)])]);
    TypedProgram {
        readings: 0,
        constructors: vec![(LIST, vec![]), (LIST, vec![0, LIST])],
        functions: vec![
            (0, vec![], result),
            (0, vec![LIST], sum),
            (LIST, vec![0], make),
        ],
    }
}

/// The refusal of the sheet once it is changed.
fn refused(change: impl FnOnce(&mut TypedProgram)) -> Refusal {
    let mut sheet = lists();
    change(&mut sheet);
    let mut out = [0xEE; TRANSLATION_BYTES];
    let refusal = translate(&sheet.encode(), &mut out).expect_err("refused");
    assert_eq!(out, [0xEE; TRANSLATION_BYTES]);
    refusal
}

fn ill_typed(record: u32) -> Refusal {
    Refusal::new(numbers::ILL_TYPED, record)
}

#[test]
fn a_typed_sheet_runs_and_translates_like_the_untyped_one() {
    let allowances = Allowances {
        steps: 1000,
        nesting: 100,
        cells: 20,
    };
    let ended = |sheet: &[u8]| {
        let mut out = vec![0xEE; TRANSLATION_BYTES];
        let mut cells = vec![0xEE; 20 * CELL_BYTES];
        let ended = translate_and_run(sheet, &mut out, &[], allowances, &mut cells);
        (ended, out, cells)
    };
    let (typed, untyped) = (lists().encode(), lists().untyped().encode());
    let (Ended { answer, .. }, ..) = ended(&typed);
    assert_eq!(answer, Answer::Number(6));
    assert_eq!(ended(&typed), ended(&untyped));
    let [length, of_untyped] = [&typed, &untyped].map(|sheet| translated_length(sheet, u64::MAX));
    assert_eq!(length, of_untyped);
}

#[test]
fn a_sheet_of_numbers() {
    let sheet = TypedProgram {
        readings: 1,
        constructors: vec![],
        functions: vec![(0, vec![], reading(0))],
    };
    let length = translated_length(&sheet.encode(), u64::MAX);
    assert_eq!(length, Ok(12 + 8 + 6));
}

#[test]
fn a_wrong_type_at_the_parent() {
    // The left operand of the sum.
    let refusal = refused(|sheet| sheet.constructors[1].1[0] = LIST);
    assert_eq!(refusal, ill_typed(14));
    // The argument of sum in result, and that of make.
    let refusal = refused(|sheet| sheet.functions[1].1[0] = 1);
    assert_eq!(refusal, ill_typed(8));
    let refusal = refused(|sheet| sheet.functions[2].1[0] = LIST);
    assert_eq!(refusal, ill_typed(7));
    // The clause of Nil.
    let refusal = refused(|sheet| sheet.constructors[0].0 = 1);
    assert_eq!(refusal, ill_typed(15));
    // The field of Cons that is built, its list once a pattern variable no more.
    let refusal = refused(|sheet| {
        sheet.constructors[1].1[1] = 1;
        sheet.functions[1].2 = number(0);
    });
    assert_eq!(refusal, ill_typed(16));
    // The arms of the if.
    let number_or_list = if_else(number(1), number(2), build(NIL, vec![]));
    let refusal = refused(|sheet| sheet.functions[0].2 = number_or_list);
    assert_eq!(refusal, ill_typed(9));
    // Its condition.
    let of_list = if_else(build(NIL, vec![]), number(2), number(3));
    let refusal = refused(|sheet| sheet.functions[0].2 = of_list);
    assert_eq!(refusal, ill_typed(9));
    // A scrutinee that is a number.
    let of_number = case(number(1), vec![(NIL, number(2))]);
    let refusal = refused(|sheet| sheet.functions[0].2 = of_number);
    assert_eq!(refusal, ill_typed(8));
}

#[test]
fn a_wrong_body_or_clause_at_itself() {
    let refusal = refused(|sheet| sheet.functions[0].0 = LIST);
    assert_eq!(refusal, ill_typed(8));
    let clauses = vec![(NIL, parameter(0)), (CONS, number(1))];
    let refusal = refused(|sheet| sheet.functions[1].2 = case(parameter(0), clauses));
    assert_eq!(refusal, ill_typed(10));
}

#[test]
fn types_out_of_range_and_counts() {
    let bad_count = |record| Refusal::new(numbers::BAD_COUNT, record);
    let refusal = refused(|sheet| sheet.constructors[0].0 = 0);
    assert_eq!(refusal, bad_count(1));
    let refusal = refused(|sheet| sheet.constructors[1].1[0] = LIST + 1);
    assert_eq!(refusal, bad_count(2));
    let refusal = refused(|sheet| sheet.functions[0].0 = LIST + 1);
    assert_eq!(refusal, bad_count(3));
    // The arity of Cons is in bytes 24 and 25.
    let mut sheet = lists().encode();
    sheet[24] = 1;
    assert_eq!(translated_length(&sheet, 0), Err(bad_count(2)));
}

#[test]
fn mixed_records() {
    let (typed, untyped) = (lists(), lists().untyped());
    // Head and constructors of one, functions and nodes of the other.
    let bytes = [12 + 8 + 12, 12 + 6 + 6];
    let [typed, untyped] = [typed.encode(), untyped.encode()];
    assert_eq!((typed[34], untyped[26]), (7, FUNCTION as u8));
    assert_eq!((typed[14], untyped[14]), (6, CONSTRUCTOR as u8));
    let bad_record = Err(Refusal::new(numbers::BAD_RECORD, 3));
    let mixed = [&typed[..bytes[0]], &untyped[bytes[1]..]].concat();
    assert_eq!(translated_length(&mixed, 0), bad_record);
    let mixed = [&untyped[..bytes[1]], &typed[bytes[0]..]].concat();
    assert_eq!(translated_length(&mixed, 0), bad_record);
}

#[test]
fn ill_typed_after_6_and_before_8() {
    let mut sheet = lists();
    sheet.functions[0].0 = LIST;
    let file = sheet.encode();
    assert_eq!(translated_length(&file, 0), Err(ill_typed(8)));
    // A pattern variable in the body of make, which is no case.
    sheet.functions[2].2 = pattern(0);
    let misgrown = Err(Refusal::new(numbers::BAD_TREE, 16));
    assert_eq!(translated_length(&sheet.encode(), 0), misgrown);
}
