//! Equal calls share a label (document 02, request 4).

use super::*;
use crate::generate::case::{well_formed, Case};
use crate::model::sheet::{Node, Sheet};
use crate::model::translate::{translate, Labelling};
use crate::model::translation::{self, Translation};
use crate::model::{run, trees};

fn read(program: &Program) -> Sheet {
    Correct.read_sheet(&program.encode()).expect("accepted")
}

/// The labels of the calls of a function in node order.
fn labels(program: &Program, function: u16) -> Vec<u16> {
    labels_of(&Correct.translate(&read(program)), function)
}

fn labels_of(translation: &Translation, function: u16) -> Vec<u16> {
    let nodes = translation.nodes.iter();
    nodes
        .filter_map(|node| match node {
            translation::Node::Call {
                label,
                function: callee,
            } if *callee == function => Some(*label),
            _ => None,
        })
        .collect()
}

fn sum(parts: Vec<Expr>) -> Expr {
    let parts = parts.into_iter();
    let sum = parts.reduce(|sum, part| operator(ADD, sum, part));
    sum.expect("a part")
}

fn g(argument: Expr) -> Expr {
    call(1, vec![argument])
}

#[test]
fn fifty_equal_calls_have_one_label() {
    let result = sum((0..50).map(|_| g(number(7))).collect());
    let double = operator(ADD, parameter(0), parameter(0));
    let template = program(&[], vec![(0, result), (1, double)]);
    assert_eq!(labels(&template, 1), [0; 50]);
    let formals = Correct.translate(&read(&template)).formals;
    assert_eq!(formals, [[0]]);
    assert_eq!(run(&template.encode(), 1000, 100, 100).value, 700);
}

#[test]
fn a_new_label_is_the_next_number_at_its_first_call() {
    let result = sum([7, 2, 7, 5, 2].map(|n| g(number(n))).to_vec());
    let template = program(&[], vec![(0, result), (1, parameter(0))]);
    assert_eq!(labels(&template, 1), [0, 1, 0, 2, 1]);
    // Numbers are the nodes 0, 2, 5, 8 and 11.
    let formals = Correct.translate(&read(&template)).formals;
    assert_eq!(formals, [[0, 2, 8]]);
}

#[test]
fn calls_in_two_functions() {
    // Numbers make equal calls there, parameters do not; nor do other
    // functions.
    let caller = || {
        sum(vec![
            g(number(7)),
            g(parameter(0)),
            call(4, vec![number(7)]),
        ])
    };
    let one = |function| call(function, vec![number(1)]);
    let result = operator(ADD, one(2), one(3));
    let functions = vec![
        (0, result),
        (1, parameter(0)),
        (1, caller()),
        (1, caller()),
        (1, parameter(0)),
    ];
    let sheet = program(&[], functions);
    assert_eq!(labels(&sheet, 1), [0, 1, 0, 2]);
    assert_eq!(labels(&sheet, 4), [0, 0]);
    assert_eq!(run(&sheet.encode(), 1000, 100, 100).value, 30);
}

#[test]
fn pattern_variables_go_by_scrutinee_and_position() {
    // Of one case in two clauses, and of two with equal scrutinees.
    let clauses = || {
        let both = operator(SUBTRACT, g(pattern(0)), g(pattern(1)));
        vec![(0, both), (1, g(pattern(0)))]
    };
    let cases = |one: Expr, two: Expr| {
        let functions = vec![
            (
                0,
                operator(ADD, call(2, vec![pair(1)]), call(3, vec![pair(2)])),
            ),
            (1, parameter(0)),
            (1, case(one, clauses())),
            (1, case(two, clauses())),
            (0, pair(3)),
        ];
        labels(&program(&[2, 1], functions), 1)
    };
    fn pair(first: i32) -> Expr {
        build(0, vec![number(first), number(9)])
    }
    let made = || call(4, vec![]);
    assert_eq!(cases(made(), made()), [0, 1, 0, 0, 1, 0]);
    assert_eq!(cases(parameter(0), parameter(0)), [0, 1, 0, 2, 3, 2]);
    assert_eq!(cases(made(), parameter(0)), [0, 1, 0, 2, 3, 2]);
}

#[test]
fn a_scrutinee_above_its_pattern_variable() {
    let both = operator(SUBTRACT, g(pattern(0)), g(pattern(0)));
    let body = case(build(0, vec![number(1)]), vec![(0, both)]);
    let sheet = program(&[1], vec![(0, body), (1, parameter(0))]);
    // The nodes that are ready last come first.
    let above = sheet.encode_shuffled(|ready| ready - 1);
    let read = Correct.read_sheet(&above).expect("accepted");
    let pattern = |node: &Node| matches!(node, Node::Pattern(_));
    let first = read.nodes.iter().position(pattern).expect("a pattern");
    assert!(first < read.scrutinee(0) as usize);
    assert_eq!(labels_of(&Correct.translate(&read), 1), [0, 0]);
}

/// Equal trees by comparing the two nodes.
fn equal(sheet: &Sheet, one: u16, two: u16) -> bool {
    let owner = |node: u16| sheet.owners[node as usize];
    let all = |ones: &[u16], twos: &[u16]| {
        ones.len() == twos.len() && ones.iter().zip(twos).all(|(&a, &b)| equal(sheet, a, b))
    };
    match (&sheet.nodes[one as usize], &sheet.nodes[two as usize]) {
        (Node::Parameter(a), Node::Parameter(b)) => a == b && owner(one) == owner(two),
        (Node::Pattern(a), Node::Pattern(b)) => {
            let scrutinee = |node: u16| sheet.scrutinee(owner(node));
            a == b && equal(sheet, scrutinee(one), scrutinee(two))
        }
        (
            Node::Operator { code, left, right },
            Node::Operator {
                code: other,
                left: a,
                right: b,
            },
        ) => code == other && all(&[*left, *right], &[*a, *b]),
        (
            Node::If { condition, yes, no },
            Node::If {
                condition: a,
                yes: b,
                no: c,
            },
        ) => all(&[*condition, *yes, *no], &[*a, *b, *c]),
        (
            Node::Call {
                function,
                arguments,
            },
            Node::Call {
                function: other,
                arguments: others,
            },
        ) => function == other && all(arguments, others),
        (
            Node::Build {
                constructor,
                arguments,
            },
            Node::Build {
                constructor: other,
                arguments: others,
            },
        ) => constructor == other && all(arguments, others),
        (Node::Case { .. }, _) | (_, Node::Case { .. }) => one == two,
        (a, b) => a == b,
    }
}

#[test]
fn classes_are_those_of_equal_trees() {
    let mut shared = 0;
    for number in 0..400 {
        let (Case::Sheet(file), _) = well_formed(5, number) else {
            panic!("a sheet")
        };
        let sheet = Correct.read_sheet(&file).expect("accepted");
        let classes = trees::classes(&Correct, &sheet);
        let calls: Vec<u16> = (0..sheet.nodes.len() as u16)
            .filter(|&node| matches!(sheet.nodes[node as usize], Node::Call { .. }))
            .collect();
        for (at, &one) in calls.iter().enumerate() {
            for &two in &calls[..at] {
                let same = classes[one as usize] == classes[two as usize];
                assert_eq!(same, equal(&sheet, one, two), "sheet {number}");
                shared += same as u32;
            }
        }
    }
    assert!(shared > 1000);
}

#[test]
fn runs_are_those_of_a_label_for_each_call() {
    let result = sum([7, 2, 7].map(|n| g(number(n))).to_vec());
    let template = program(&[], vec![(0, result), (1, parameter(0))]);
    let sheet = read(&template);
    let [now, before] = [Labelling::EqualCalls, Labelling::EachCall].map(|labelling| {
        let allowances = Allowances {
            steps: 100,
            nesting: 10,
            cells: 10,
        };
        let file = translation::write(&translate(&Correct, &sheet, labelling));
        let mut cells = [0; 680];
        let answer = run::run(&Correct, &file, &[], allowances, &mut cells);
        (answer, cells[..68].to_vec())
    });
    assert_eq!(
        (now.0, before.0),
        (answered(16, 11, 1), answered(16, 11, 1))
    );
    // The last call's, which has the first's label or one of its own.
    let last = |label: u8| cell([label, 0, 1], &[(0, number_entry(7))]);
    assert_eq!(now.1, last(0));
    assert_eq!(before.1, last(2));
}
