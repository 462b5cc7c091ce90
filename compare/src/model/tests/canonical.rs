//! A sheet in canonical form (document 02, request 13): the order of the nodes, the
//! fields that stay, the refusals and their order, and which sheets come out alike.

use super::*;
use crate::generate::{ceiling, deep, given_back, sheet, template, typed, typed_ceiling};
use crate::model::CanonicalBehaviour;
use zifnora::kinds::sheet as kinds;

/// The canonical form, in one byte more than it has, which stays as it was.
fn form(file: &[u8]) -> Result<Vec<u8>, Refusal> {
    let mut out = vec![0xEE; file.len() + 1];
    let length = Correct.canonical_sheet(file, &mut out)?;
    assert_eq!((length, out[length]), (file.len(), 0xEE));
    out.truncate(length);
    Ok(out)
}

/// The number and place of a refused call, which writes nothing.
fn refused(file: &[u8], room: usize) -> (u16, u32) {
    let mut out = vec![0xEE; room];
    let refusal = Correct
        .canonical_sheet(file, &mut out)
        .expect_err("refused");
    assert_eq!(out, vec![0xEE; room]);
    (refusal.number, refusal.place)
}

/// A file of these records.
fn file_of(records: &[(u16, &[u16])]) -> Vec<u8> {
    let mut file = Vec::new();
    for (kind, fields) in records {
        put_record(&mut file, *kind, fields);
    }
    file
}

/// The records of a head, constructors and functions, and then those of nodes.
fn with_nodes(sections: &[(u16, &[u16])], nodes: &[(u16, &[u16])]) -> Vec<u8> {
    file_of(&[sections, nodes].concat())
}

#[test]
fn children_come_before_their_parent_from_left_to_right() {
    // result = if r0 < 7 then Pair(1, 2) else id(r1), id(a) = a.
    let sections: [(u16, &[u16]); 4] = [
        (kinds::HEAD, &[2, 1, 2, 10]),
        (kinds::CONSTRUCTOR, &[2]),
        (kinds::FUNCTION, &[0, 9]),
        (kinds::FUNCTION, &[1, 1]),
    ];
    let shuffled: [(u16, &[u16]); 10] = [
        (kinds::READING, &[1]),
        (kinds::NUMBER, &[2, 0]),
        (kinds::CALL, &[1, 0]),
        (kinds::NUMBER, &[7, 0xFFFF]),
        (kinds::NUMBER, &[1, 0]),
        (kinds::BUILD, &[0, 4, 1]),
        (kinds::READING, &[0]),
        (kinds::OPERATOR, &[LESS, 6, 3]),
        (kinds::IF, &[7, 5, 2]),
        (kinds::PARAMETER, &[0]),
    ];
    let ordered: [(u16, &[u16]); 10] = [
        (kinds::READING, &[0]),
        (kinds::NUMBER, &[7, 0xFFFF]),
        (kinds::OPERATOR, &[LESS, 0, 1]),
        (kinds::NUMBER, &[1, 0]),
        (kinds::NUMBER, &[2, 0]),
        (kinds::BUILD, &[0, 3, 4]),
        (kinds::READING, &[1]),
        (kinds::CALL, &[1, 6]),
        (kinds::IF, &[2, 5, 7]),
        (kinds::PARAMETER, &[0]),
    ];
    let canonical = with_nodes(&sections, &ordered);
    assert_eq!(form(&with_nodes(&sections, &shuffled)), Ok(canonical));
}

#[test]
fn a_scrutinee_comes_before_the_clauses() {
    // result = 0, f(a) = case a of A -> 3, B(b) -> b + b, C -> 4.
    let sections: [(u16, &[u16]); 6] = [
        (kinds::HEAD, &[0, 3, 2, 8]),
        (kinds::CONSTRUCTOR, &[0]),
        (kinds::CONSTRUCTOR, &[1]),
        (kinds::CONSTRUCTOR, &[0]),
        (kinds::FUNCTION, &[0, 1]),
        (kinds::FUNCTION, &[1, 7]),
    ];
    let shuffled: [(u16, &[u16]); 8] = [
        (kinds::NUMBER, &[0, 0]),
        (kinds::NUMBER, &[4, 0]),
        (kinds::PATTERN_VARIABLE, &[0]),
        (kinds::PATTERN_VARIABLE, &[0]),
        (kinds::OPERATOR, &[ADD, 3, 2]),
        (kinds::NUMBER, &[3, 0]),
        (kinds::PARAMETER, &[0]),
        (kinds::CASE, &[6, 0, 5, 1, 4, 2, 1]),
    ];
    let ordered: [(u16, &[u16]); 8] = [
        (kinds::NUMBER, &[0, 0]),
        (kinds::PARAMETER, &[0]),
        (kinds::NUMBER, &[3, 0]),
        (kinds::PATTERN_VARIABLE, &[0]),
        (kinds::PATTERN_VARIABLE, &[0]),
        (kinds::OPERATOR, &[ADD, 3, 4]),
        (kinds::NUMBER, &[4, 0]),
        (kinds::CASE, &[1, 0, 2, 1, 5, 2, 6]),
    ];
    let canonical = with_nodes(&sections, &ordered);
    assert_eq!(form(&with_nodes(&sections, &shuffled)), Ok(canonical));
}

#[test]
fn types_stay() {
    let rest = operator(ADD, pattern(0), call(1, vec![pattern(1)]));
    let sum = case(parameter(0), vec![(0, number(0)), (1, rest)]);
    let typed = TypedProgram {
        readings: 2,
        constructors: vec![(64, vec![]), (64, vec![0, 64]), (7, vec![9; 8])],
        functions: vec![
            (0, vec![], call(1, vec![build(0, vec![])])),
            (0, vec![64], sum),
        ],
    };
    let last = |bound: usize| bound - 1;
    let shuffled = typed.encode_shuffled(last);
    assert_ne!(shuffled, typed.encode());
    assert_eq!(form(&shuffled), Ok(typed.encode()));
    let untyped = typed.untyped();
    let shuffled = untyped.encode_shuffled(last);
    assert_eq!(form(&shuffled), Ok(untyped.encode()));
}

/// A sheet that a generator makes is, in post-order, its own canonical form, and
/// that of any order.
#[test]
fn the_builders_post_order() {
    let makers: [fn(&mut Random) -> Program; 5] = [
        sheet::sheet,
        sheet::tiny,
        template::template,
        given_back::numbers,
        given_back::lists,
    ];
    for seed in 0..200 {
        let mut random = Random::new(seed);
        for make in makers {
            let program = make(&mut random);
            let canonical = program.encode();
            let shuffled = program.encode_shuffled(|bound| random.below(bound));
            assert_eq!(form(&canonical).as_ref(), Ok(&canonical));
            assert_eq!(form(&shuffled), Ok(canonical));
        }
    }
}

#[test]
fn written_twice() {
    let makers: [fn(&mut Random) -> Vec<u8>; 4] = [
        typed::well_typed,
        typed_ceiling::greatest,
        ceiling::greatest,
        deep::deep,
    ];
    for seed in 0..20 {
        for make in makers {
            let file = make(&mut Random::new(seed));
            let once = form(&file).expect("accepted");
            assert_eq!(translated(&once).map(|_| ()), Ok(()));
            assert_eq!(form(&once), Ok(once));
        }
    }
}

#[test]
fn sheets_that_differ_in_one_field() {
    let file = sheet_s();
    let canonical = form(&file).expect("accepted");
    assert_eq!(canonical, file);
    // The readings, the numbers, the operators' codes.
    for at in [4, 32, 34, 48, 64, 86] {
        let mut other = file.clone();
        other[at] ^= 2;
        let other = form(&other).expect("accepted");
        assert_ne!(other, canonical, "byte {at}");
    }
    // The operands of the difference, exchanged.
    let (left, right) = (66..68, 68..70);
    let mut other = file.clone();
    other.copy_within(right.clone(), left.start);
    other[right].copy_from_slice(&file[left]);
    let other = form(&other).expect("accepted");
    assert_ne!(other, canonical);
}

#[test]
fn refusals_of_the_reader_come_first() {
    let file = sheet_s();
    let bad = |at: usize, value: u8| {
        let mut changed = file.clone();
        changed[at] = value;
        changed
    };
    let refusals = [
        (file[..91].to_vec(), (TRUNCATED, 10)),
        (vec![0; 32_769], (OVERSIZE, 0)),
        (bad(14, 4), (BAD_RECORD, 1)),
        ([&file[..], &[0]].concat(), (BAD_RECORD, 11)),
        (bad(4, 33), (BAD_COUNT, 0)),
        (bad(40, 2), (OUT_OF_RANGE, 4)),
        (bad(42, 1), (BAD_TREE, 3)),
        (bad(40, 0), (BAD_ARGUMENTS, 4)),
    ];
    for (file, refusal) in refusals {
        for room in [0, file.len() - 1, file.len(), file.len() + 1] {
            assert_eq!(refused(&file, room), refusal);
        }
    }
    let ill_typed = TypedProgram {
        readings: 0,
        constructors: vec![(1, vec![])],
        functions: vec![(0, vec![], build(0, vec![]))],
    };
    let file = ill_typed.encode();
    for room in [0, file.len()] {
        assert_eq!(refused(&file, room), (ILL_TYPED, 3));
    }
}

#[test]
fn an_output_that_is_too_short() {
    let file = sheet_s();
    for room in 0..file.len() {
        assert_eq!(refused(&file, room), (SHORT_OUTPUT, 0));
    }
    let mut just = vec![0xEE; file.len()];
    assert_eq!(Correct.canonical_sheet(&file, &mut just), Ok(92));
    assert_eq!(just, file);
}
