//! A sheet in canonical form: the order of its nodes, what stays, which sheets come
//! out alike, how they run, the refusals, and the bytes that stay as they were.

use zifnora::build_sheet::*;
use zifnora::kinds::sheet as kinds;
use zifnora::sizes::{
    CELL_BYTES, MOST_CONSTRUCTORS, MOST_FIELDS, MOST_FUNCTIONS, MOST_NODES, MOST_READINGS,
    SHEET_BYTES, TRANSLATION_BYTES,
};
use zifnora::{canonical_sheet, numbers, raw, translate_and_run, translated_length};
use zifnora::{Allowances, Answer, Ended, Refusal, Stop};

/// A byte that no buffer here gets by a call.
const UNTOUCHED: u8 = 0xEE;

/// The canonical form of an accepted sheet, which is as long, is accepted and does
/// not change when it is written again.
fn canonical(sheet: &[u8]) -> Vec<u8> {
    let mut out = vec![UNTOUCHED; sheet.len() + 3];
    assert_eq!(canonical_sheet(sheet, &mut out), Ok(sheet.len()));
    let past = out.split_off(sheet.len());
    assert_eq!(past, [UNTOUCHED; 3]);
    let mut again = vec![UNTOUCHED; out.len()];
    assert_eq!(canonical_sheet(&out, &mut again), Ok(out.len()));
    assert_eq!(again, out);
    let lengths = [sheet, &out].map(|sheet| translated_length(sheet, u64::MAX));
    assert!(lengths[0].is_ok() && lengths[0] == lengths[1]);
    out
}

/// The refusal of a call, which writes nothing.
fn refused(sheet: &[u8], room: usize) -> Refusal {
    let mut out = vec![UNTOUCHED; room];
    let code = raw::canonical_sheet(sheet, &mut out);
    assert_eq!(out, vec![UNTOUCHED; room]);
    let refusal = canonical_sheet(sheet, &mut out).expect_err("refused");
    assert_eq!(
        code,
        u64::from(refusal.number) << 32 | u64::from(refusal.place)
    );
    refusal
}

/// Picks the last of the nodes that may come next.
fn last(bound: usize) -> usize {
    bound - 1
}

/// result = first(Pair(r1, r0)) - 7, first(p) = case p of None -> 3, Pair(a, b) ->
/// if a then b else a * b.
fn pairs() -> Program {
    let pair = build(1, vec![reading(1), reading(0)]);
    let result = operator(SUBTRACT, call(1, vec![pair]), number(7));
    let product = operator(MULTIPLY, pattern(0), pattern(1));
    let chosen = if_else(pattern(0), pattern(1), product);
    let first = case(parameter(0), vec![(0, number(3)), (1, chosen)]);
    Program {
        readings: 2,
        arities: vec![0, 2],
        functions: vec![(0, result), (1, first)],
    }
}

/// The same sheet with types.
fn typed_pairs() -> TypedProgram {
    let Program { functions, .. } = pairs();
    let [result, first] = [0, 1].map(|at: usize| functions[at].1.clone());
    TypedProgram {
        readings: 2,
        constructors: vec![(64, vec![]), (64, vec![0, 0])],
        functions: vec![(0, vec![], result), (0, vec![64], first)],
    }
}

#[test]
fn nodes_in_post_order() {
    let sections: [(u16, &[u16]); 5] = [
        (kinds::HEAD, &[2, 2, 2, 15]),
        (kinds::CONSTRUCTOR, &[0]),
        (kinds::CONSTRUCTOR, &[2]),
        (kinds::FUNCTION, &[0, 6]),
        (kinds::FUNCTION, &[1, 9]),
    ];
    let nodes: [(u16, &[u16]); 15] = [
        (kinds::READING, &[1]),
        (kinds::READING, &[0]),
        (kinds::BUILD, &[1, 0, 1]),
        (kinds::CALL, &[1, 2]),
        (kinds::NUMBER, &[7, 0]),
        (kinds::OPERATOR, &[SUBTRACT, 3, 4]),
        (kinds::PARAMETER, &[0]),
        (kinds::NUMBER, &[3, 0]),
        (kinds::PATTERN_VARIABLE, &[0]),
        (kinds::PATTERN_VARIABLE, &[1]),
        (kinds::PATTERN_VARIABLE, &[0]),
        (kinds::PATTERN_VARIABLE, &[1]),
        (kinds::OPERATOR, &[MULTIPLY, 10, 11]),
        (kinds::IF, &[8, 9, 12]),
        (kinds::CASE, &[6, 0, 7, 1, 13]),
    ];
    let mut expected = Vec::new();
    for (kind, fields) in sections.into_iter().chain(nodes) {
        put_record(&mut expected, kind, fields);
    }
    assert_eq!(canonical(&pairs().encode()), expected);
    for shift in 0..40 {
        let mut turn = shift;
        let sheet = pairs().encode_shuffled(|bound| {
            turn += 1;
            turn % bound
        });
        assert_eq!(canonical(&sheet), expected);
    }
}

#[test]
fn types_stay() {
    let sheet = typed_pairs();
    let shuffled = sheet.encode_shuffled(last);
    assert_ne!(shuffled, sheet.encode());
    assert_eq!(canonical(&shuffled), sheet.encode());
    // The types of a constructor that nothing builds.
    let mut other = sheet.clone();
    other.constructors[0].0 = 63;
    other.functions[1].2 = number(0);
    let mut another = other.clone();
    another.constructors[0].0 = 62;
    assert_ne!(canonical(&other.encode()), canonical(&another.encode()));
}

#[test]
fn other_sheets_come_out_otherwise() {
    let form = canonical(&pairs().encode());
    let differs = |change: fn(&mut Program)| {
        let mut other = pairs();
        change(&mut other);
        let [one, two] = [other.encode(), other.encode_shuffled(last)];
        assert_ne!(canonical(&one), form);
        assert_eq!(canonical(&one), canonical(&two));
    };
    differs(|sheet| sheet.readings = 3);
    differs(|sheet| sheet.arities.push(0));
    differs(|sheet| sheet.functions.push((0, number(0))));
    differs(|sheet| sheet.functions[0].1 = number(65_536));
    differs(|sheet| sheet.functions[0].1 = number(0));
    differs(|sheet| {
        if let Expr::Operator(code, left, right) = &mut sheet.functions[0].1 {
            *code = ADD;
            std::mem::swap(left, right);
        }
    });
    differs(|sheet| {
        if let Expr::Operator(_, left, right) = &mut sheet.functions[0].1 {
            std::mem::swap(left, right);
        }
    });
}

/// How a sheet's run ends, with so many steps.
fn ended(sheet: &[u8], steps: u32) -> Ended {
    let allowances = Allowances {
        steps,
        nesting: 100,
        cells: 4,
    };
    let mut out = vec![0; TRANSLATION_BYTES];
    let mut cells = vec![0; 4 * CELL_BYTES];
    translate_and_run(sheet, &mut out, &[5, 9], allowances, &mut cells)
}

#[test]
fn runs_are_the_same() {
    let form = canonical(&pairs().encode());
    let shuffled = pairs().encode_shuffled(last);
    assert_ne!(form, shuffled);
    assert_eq!(ended(&form, 100).answer, Answer::Number(-2));
    let most = ended(&form, 100).steps;
    for steps in 0..=most {
        assert_eq!(ended(&form, steps), ended(&shuffled, steps));
        let stopped = ended(&form, steps).answer == Answer::Stopped(Stop::NoStep);
        assert_eq!(stopped, steps < most);
    }
}

#[test]
fn refusals() {
    let sheet = pairs().encode_shuffled(last);
    let short = Refusal::new(numbers::SHORT_OUTPUT, 0);
    for room in 0..sheet.len() {
        assert_eq!(refused(&sheet, room), short);
    }
    // The reader's refusals are before 8; records 5 to 19 are the nodes.
    let (cut, longer) = (&sheet[..sheet.len() - 1], [&sheet[..], &[0]].concat());
    let far = vec![0; SHEET_BYTES + 1];
    let bad_count = {
        let mut sheet = sheet.clone();
        sheet[4] = MOST_READINGS as u8 + 1;
        sheet
    };
    let mut ill_typed = typed_pairs();
    ill_typed.functions[0].0 = 64;
    let ill_typed = ill_typed.encode();
    for (sheet, number, place) in [
        (cut, numbers::TRUNCATED, 19),
        (&longer, numbers::BAD_RECORD, 20),
        (&far, numbers::OVERSIZE, 0),
        (&bad_count, numbers::BAD_COUNT, 0),
        (&ill_typed, numbers::ILL_TYPED, 10),
        (&[], numbers::TRUNCATED, 0),
    ] {
        for room in [0, sheet.len(), sheet.len() + 1] {
            assert_eq!(refused(sheet, room), Refusal::new(number, place));
        }
    }
}

/// Sheets with as many nodes as may be, one below the other or side by side.
#[test]
fn sheets_at_the_limits() {
    let id = || (1, parameter(0));
    let chain = (2..MOST_NODES).fold(number(1), |inner, _| call(1, vec![inner]));
    let left = |inner, leaf| operator(SUBTRACT, inner, leaf);
    let right = |inner, leaf| operator(SUBTRACT, leaf, inner);
    let comb = |around: fn(Expr, Expr) -> Expr| {
        (1..MOST_NODES / 2).fold(reading(0), |inner, leaf| around(inner, number(leaf as i32)))
    };
    let each = MOST_NODES / MOST_FUNCTIONS - 2;
    let wide = (0..MOST_FUNCTIONS).map(|function| {
        let clauses = (0..each).map(|clause| (clause as u16, number(clause as i32)));
        let parameters = if function == 0 { 0 } else { MOST_FIELDS };
        (parameters as u16, case(number(0), clauses.collect()))
    });
    for functions in [
        vec![(0, chain), id()],
        vec![(0, comb(left)), id()],
        vec![(0, comb(right)), id()],
        wide.collect(),
    ] {
        let sheet = Program {
            readings: MOST_READINGS as u16,
            arities: vec![MOST_FIELDS as u16; MOST_CONSTRUCTORS],
            functions,
        };
        let form = sheet.encode();
        assert_eq!(canonical(&form), form);
        assert_eq!(canonical(&sheet.encode_shuffled(last)), form);
        assert_eq!(canonical(&sheet.encode_shuffled(|_| 0)), form);
    }
}
