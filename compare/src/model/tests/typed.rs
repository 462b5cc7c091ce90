//! Typed sheets (document 02, request 11): which records make one, the ranges
//! of their types, each rule with its place, and the sheet with its types
//! removed.

use super::*;
use crate::model::types::removed;
use zifnora::kinds::sheet as kinds;

const NIL: u16 = 0;
const CONS: u16 = 1;
/// Of another type than the lists.
const UNIT: u16 = 2;

const LIST: u16 = 64;
const OTHER: u16 = 1;

/// result = `body` of a type, id(l) = l on lists, make(n) = Cons(n, Nil). The
/// constructors are records 1 to 3, the functions 4 to 6; node n is record 7 + n.
fn sheet(result: u16, body: Expr) -> TypedProgram {
    let make = build(CONS, vec![parameter(0), build(NIL, vec![])]);
    TypedProgram {
        readings: 1,
        constructors: vec![(LIST, vec![]), (LIST, vec![0, LIST]), (OTHER, vec![])],
        functions: vec![
            (result, vec![], body),
            (LIST, vec![LIST], parameter(0)),
            (LIST, vec![0], make),
        ],
    }
}

fn answered_by(file: &[u8]) -> Result<(), Refusal> {
    translated(file).map(|_| ())
}

fn of(result: u16, body: Expr) -> Result<(), Refusal> {
    answered_by(&sheet(result, body).encode())
}

/// 22 at a node.
fn ill_typed(node: u32) -> Result<(), Refusal> {
    Err(Refusal::new(ILL_TYPED, 7 + node))
}

fn nil() -> Expr {
    build(NIL, vec![])
}

fn unit() -> Expr {
    build(UNIT, vec![])
}

#[test]
fn operands_and_conditions_are_numbers() {
    assert_eq!(of(0, operator(EQUAL, reading(0), number(1))), Ok(()));
    assert_eq!(of(0, operator(ADD, nil(), number(1))), ill_typed(2));
    assert_eq!(of(0, operator(ADD, number(1), nil())), ill_typed(2));
    assert_eq!(of(0, if_else(reading(0), number(1), number(2))), Ok(()));
    let wrong = if_else(nil(), number(1), number(2));
    assert_eq!(of(0, wrong), ill_typed(3));
}

#[test]
fn arms_agree() {
    let arms = |yes, no| if_else(number(1), yes, no);
    assert_eq!(of(LIST, arms(nil(), nil())), Ok(()));
    assert_eq!(of(LIST, arms(nil(), unit())), ill_typed(3));
    assert_eq!(of(LIST, arms(unit(), nil())), ill_typed(3));
    assert_eq!(of(0, arms(number(1), nil())), ill_typed(3));
    // Both agree with each other, not with the result.
    assert_eq!(of(LIST, arms(unit(), unit())), ill_typed(3));
    assert_eq!(of(0, arms(nil(), nil())), ill_typed(3));
}

#[test]
fn arguments_and_calls() {
    assert_eq!(of(LIST, call(1, vec![nil()])), Ok(()));
    assert_eq!(of(LIST, call(1, vec![call(2, vec![number(3)])])), Ok(()));
    assert_eq!(of(LIST, call(1, vec![number(3)])), ill_typed(1));
    assert_eq!(of(LIST, call(1, vec![unit()])), ill_typed(1));
    assert_eq!(of(LIST, call(2, vec![nil()])), ill_typed(1));
    // The inner call is of a type that is not the parameter's.
    let wrong = call(2, vec![call(2, vec![number(3)])]);
    assert_eq!(of(LIST, wrong), ill_typed(2));
    assert_eq!(of(0, call(1, vec![nil()])), ill_typed(1));
}

#[test]
fn built_fields() {
    let cons = |head, tail| build(CONS, vec![head, tail]);
    assert_eq!(of(LIST, cons(number(1), nil())), Ok(()));
    assert_eq!(of(LIST, cons(nil(), nil())), ill_typed(2));
    assert_eq!(of(LIST, cons(number(1), number(2))), ill_typed(2));
    assert_eq!(of(LIST, cons(number(1), unit())), ill_typed(2));
    assert_eq!(of(OTHER, cons(number(1), nil())), ill_typed(2));
}

#[test]
fn clauses() {
    let on_nil = |clauses| case(nil(), clauses);
    assert_eq!(of(0, on_nil(vec![(NIL, number(1))])), Ok(()));
    let both = vec![(NIL, number(1)), (CONS, pattern(0))];
    assert_eq!(of(0, on_nil(both)), Ok(()));
    // A missing clause is no matter of types.
    assert_eq!(of(0, on_nil(vec![(CONS, pattern(0))])), Ok(()));
    // Pattern variables have the types of the fields.
    assert_eq!(of(LIST, on_nil(vec![(CONS, pattern(1))])), Ok(()));
    assert_eq!(of(0, on_nil(vec![(CONS, pattern(1))])), ill_typed(1));
    let more = operator(ADD, pattern(0), pattern(1));
    assert_eq!(of(0, on_nil(vec![(CONS, more)])), ill_typed(3));
    // A clause of another type, and a scrutinee of other types.
    let foreign = vec![(NIL, number(1)), (UNIT, number(2))];
    assert_eq!(of(0, on_nil(foreign)), ill_typed(3));
    let of_unit = case(unit(), vec![(NIL, number(1))]);
    assert_eq!(of(0, of_unit), ill_typed(2));
    let of_number = case(number(0), vec![(NIL, number(1))]);
    assert_eq!(of(0, of_number), ill_typed(2));
    // Wrong nodes of clauses, before the case and in the order of nodes.
    let wrong = vec![(NIL, number(1)), (CONS, nil())];
    assert_eq!(of(0, on_nil(wrong.clone())), ill_typed(2));
    assert_eq!(of(LIST, on_nil(wrong.clone())), ill_typed(1));
    let in_both = case(number(0), wrong);
    assert_eq!(of(0, in_both), ill_typed(2));
}

#[test]
fn bodies_and_results() {
    assert_eq!(of(0, number(1)), Ok(()));
    assert_eq!(of(LIST, nil()), Ok(()));
    assert_eq!(of(OTHER, unit()), Ok(()));
    assert_eq!(of(0, nil()), ill_typed(0));
    assert_eq!(of(LIST, unit()), ill_typed(0));
    assert_eq!(of(LIST, reading(0)), ill_typed(0));
    let mut program = sheet(0, number(1));
    program.functions[1].1[0] = 0;
    assert_eq!(answered_by(&program.encode()), ill_typed(1));
    // A type without constructors.
    program.functions[1] = (9, vec![9], parameter(0));
    assert_eq!(answered_by(&program.encode()), Ok(()));
}

#[test]
fn types_out_of_range() {
    let with = |change: fn(&mut TypedProgram)| {
        let mut program = sheet(0, number(1));
        change(&mut program);
        answered_by(&program.encode())
    };
    let bad_count = |record| Err(Refusal::new(BAD_COUNT, record));
    assert_eq!(with(|all| all.constructors[2].0 = 64), Ok(()));
    assert_eq!(with(|all| all.constructors[2].0 = 65), bad_count(3));
    assert_eq!(with(|all| all.constructors[2].0 = 0), bad_count(3));
    assert_eq!(with(|all| all.constructors[2].0 = 256), bad_count(3));
    assert_eq!(with(|all| all.constructors[2].1 = vec![0, 64]), Ok(()));
    assert_eq!(with(|all| all.constructors[2].1 = vec![65]), bad_count(3));
    assert_eq!(with(|all| all.functions[1].0 = 65), bad_count(5));
    assert_eq!(with(|all| all.functions[2].1[0] = 65), bad_count(6));
    // In the order of records, and before a wrong sum.
    let two = |all: &mut TypedProgram| {
        all.constructors[1].1[0] = 65;
        all.constructors[2].0 = 0;
    };
    assert_eq!(with(two), bad_count(2));
}

/// A typed sheet of one constructor and one function, of these fields, with one
/// node.
fn declared(constructor: &[u16], function: &[u16]) -> Vec<u8> {
    let mut file = Vec::new();
    put_record(&mut file, kinds::HEAD, &[0, 1, 1, 1]);
    put_record(&mut file, kinds::TYPED_CONSTRUCTOR, constructor);
    put_record(&mut file, kinds::TYPED_FUNCTION, function);
    put_record(&mut file, kinds::NUMBER, &[7, 0]);
    file
}

#[test]
fn counts_and_lengths() {
    let of = |constructor: &[u16], function: &[u16]| answered_by(&declared(constructor, function));
    let bad_count = |record| Err(Refusal::new(BAD_COUNT, record));
    let bad_record = |record| Err(Refusal::new(BAD_RECORD, record));
    let (least, right) = ([0, 1], [0, 1, 0]);
    assert_eq!(of(&least, &right), Ok(()));
    assert_eq!(of(&[8, 1, 0, 0, 0, 0, 0, 0, 0, 1], &right), Ok(()));
    // Shorter and longer than the kinds may be.
    assert_eq!(of(&[0], &right), bad_record(1));
    assert_eq!(
        of(&[9, 1, 0, 0, 0, 0, 0, 0, 0, 0, 0], &right),
        bad_record(1)
    );
    assert_eq!(of(&least, &[0, 1]), bad_record(2));
    assert_eq!(
        of(&least, &[9, 1, 0, 0, 0, 0, 0, 0, 0, 0, 0, 0]),
        bad_record(2)
    );
    // A count that is not the length's.
    assert_eq!(of(&[1, 1], &right), bad_count(1));
    assert_eq!(of(&[0, 1, 0], &right), bad_count(1));
    assert_eq!(of(&[9, 1, 0, 0, 0, 0, 0, 0, 0, 0], &right), bad_count(1));
    assert_eq!(of(&least, &[1, 1, 0]), bad_count(2));
    assert_eq!(of(&least, &[0, 1, 0, 0]), bad_count(2));
    // The counts of kind 3.
    assert_eq!(of(&least, &[0, 0, 0]), bad_count(2));
    assert_eq!(of(&least, &[0, 2, 0]), bad_count(2));
    assert_eq!(
        of(&least, &[1, 1, 0, 0]),
        Err(Refusal::new(BAD_ARGUMENTS, 2))
    );
    // Cut short, once its kind and length are right.
    let file = declared(&least, &right);
    for cut in 0..file.len() {
        assert_eq!(translated(&file[..cut]).unwrap_err().number, TRUNCATED);
    }
}

/// A sheet of one node with records of these kinds and their least lengths.
fn mixed(constructors: &[u16], functions: &[u16]) -> Result<(), Refusal> {
    let mut file = Vec::new();
    let counts = [constructors.len(), functions.len(), functions.len()];
    let [k, f, n] = counts.map(|count| count as u16);
    put_record(&mut file, kinds::HEAD, &[0, k, f, n]);
    for &kind in constructors.iter().chain(functions) {
        let fields: &[u16] = match kind {
            kinds::CONSTRUCTOR => &[0],
            kinds::FUNCTION => &[0, 1],
            kinds::TYPED_CONSTRUCTOR => &[0, 1],
            _ => &[0, 1, 0],
        };
        put_record(&mut file, kind, fields);
    }
    for _ in functions {
        put_record(&mut file, kinds::NUMBER, &[7, 0]);
    }
    answered_by(&file)
}

#[test]
fn record_1_decides_and_mixing_is_3() {
    let bad_record = |record| Err(Refusal::new(BAD_RECORD, record));
    assert_eq!(mixed(&[6, 6], &[7, 7]), Ok(()));
    assert_eq!(mixed(&[2, 2], &[3, 3]), Ok(()));
    assert_eq!(mixed(&[], &[7, 7]), Ok(()));
    assert_eq!(mixed(&[6, 2], &[7, 7]), bad_record(2));
    assert_eq!(mixed(&[2, 6], &[3, 3]), bad_record(2));
    assert_eq!(mixed(&[6, 6], &[3, 3]), bad_record(3));
    assert_eq!(mixed(&[2, 2], &[7, 7]), bad_record(3));
    assert_eq!(mixed(&[6, 6], &[7, 3]), bad_record(4));
    assert_eq!(mixed(&[], &[7, 3]), bad_record(2));
    assert_eq!(mixed(&[], &[3, 7]), bad_record(2));
    // The other kind of a typed sheet as record 1.
    assert_eq!(mixed(&[7], &[7]), bad_record(1));
    assert_eq!(mixed(&[], &[6]), bad_record(1));
    assert_eq!(mixed(&[3], &[3]), bad_record(1));
}

#[test]
fn ill_typed_after_6_and_before_8() {
    let mut program = sheet(0, operator(ADD, nil(), number(1)));
    let file = program.encode();
    let expected = Err(Refusal::new(ILL_TYPED, 9));
    assert_eq!(Correct.translate_into(&file, &mut []), expected);
    assert_eq!(Correct.translated_length(&file, 0), expected);
    // A pattern variable outside a clause, in a later node.
    program.functions[1].2 = pattern(0);
    let misgrown = Err(Refusal::new(BAD_TREE, 7 + 3));
    assert_eq!(answered_by(&program.encode()), misgrown);
}

#[test]
fn types_removed() {
    let cons = build(CONS, vec![number(1), call(2, vec![reading(0)])]);
    let typed = sheet(LIST, call(1, vec![cons]));
    let untyped = removed(&typed.encode());
    assert_eq!(untyped, typed.untyped().encode());
    assert_eq!(removed(&untyped), untyped);
    assert_eq!(translated(&typed.encode()), translated(&untyped));
    let list = build(CONS, vec![number(5), nil()]);
    let clauses = vec![(NIL, number(0)), (CONS, pattern(0))];
    let first = TypedProgram {
        readings: 0,
        ..sheet(0, case(call(1, vec![list]), clauses))
    };
    assert_eq!(run(&first.encode(), 100, 10, 10).value, 5);
    assert_eq!(own(&first.encode()), Own::Number(5));
    // Bytes after the last whole record stay.
    let cut = &typed.encode()[..15];
    assert_eq!(removed(cut), cut);
    assert_eq!(removed(&[2, 0, 6, 0, 1]), [2, 0, 6, 0, 1]);
}
