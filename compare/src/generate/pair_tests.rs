//! The generators of pairs of sheets make what they say, and pairs are told apart.

use super::case::{well_formed, Case};
use super::damage::{get, records};
use super::random::Random;
use super::{deep, one_change, renumber};
use crate::call::Call;
use crate::canonical::{pair, Pair};
use crate::model::sheet::Sheet;
use crate::model::{Behaviour, Correct};
use std::collections::{BTreeMap, BTreeSet};
use zifnora::build_sheet::*;
use zifnora::kinds::sheet as kinds;
use zifnora::sizes::MOST_NODES;

/// What two sheets are to each other.
fn pair_of(sheet: &[u8], other: &[u8]) -> Option<Pair> {
    pair(&Call::Canonical {
        sheet: sheet.to_vec(),
        out: vec![0; sheet.len().max(other.len())],
        other: other.to_vec(),
    })
}

fn some_sheet(number: u64) -> (Vec<u8>, Random) {
    match well_formed(4, number) {
        (Case::Sheet(file), random) => (file, random),
        _ => panic!("a sheet"),
    }
}

#[test]
fn renumbered_sheets_are_equal_trees() {
    let mut other_bytes = 0;
    for number in 0..1000 {
        let (file, mut random) = some_sheet(number);
        let other = renumber::renumbered(&mut random, &file);
        assert!(Correct.read_sheet(&other).is_ok());
        assert_eq!(other.len(), file.len());
        let differs = other != file;
        let expected = differs.then_some(Pair::Renumbered);
        assert_eq!(pair_of(&file, &other), expected);
        other_bytes += differs as u32;
    }
    assert!(other_bytes >= 850, "{other_bytes}");
}

#[test]
fn all_orders_are_met() {
    // Four leaves and three operators in one function: 80 orders.
    let leaves = [reading(0), reading(1), reading(2), reading(3)];
    let [a, b, c, d] = leaves;
    let body = operator(ADD, operator(ADD, a, b), operator(ADD, c, d));
    let sheet = Program {
        readings: 4,
        arities: vec![],
        functions: vec![(0, body)],
    };
    let file = sheet.encode();
    let mut random = Random::new(1);
    let orders: BTreeSet<Vec<u8>> = (0..20_000)
        .map(|_| renumber::renumbered(&mut random, &file))
        .collect();
    assert_eq!(orders.len(), 80);
}

#[test]
fn changed_sheets_are_others() {
    let [mut none, mut different, mut equal] = [0; 3];
    // By kind of record, and 100 above it where the kind or the children changed.
    let mut places: BTreeMap<u16, u32> = BTreeMap::new();
    for number in 0..4000 {
        let (file, mut random) = some_sheet(number);
        let Some(other) = one_change::changed(&mut random, &file) else {
            none += 1;
            continue;
        };
        assert!(Correct.read_sheet(&other).is_ok());
        match pair_of(&file, &other).expect("a pair") {
            Pair::Different => different += 1,
            Pair::Renumbered => equal += 1,
        }
        let mut all = records(&file).into_iter();
        let changed = all.find(|&(at, length)| file[at..][..length] != other[at..][..length]);
        let (at, length) = changed.expect("a record");
        let fields = (at..at + length).step_by(2);
        let others = fields.filter(|&at| get(&file, at) != get(&other, at));
        let kind = get(&file, at + 2);
        let beyond = kind != get(&other, at + 2) || others.count() > 1;
        *places.entry(kind + 100 * beyond as u16).or_default() += 1;
    }
    assert!(
        none <= 200 && different >= 3600,
        "{none} {different} {equal}"
    );
    assert!(equal >= 10, "{equal}");
    let sections = [kinds::HEAD, kinds::CONSTRUCTOR, kinds::FUNCTION];
    let typed = [kinds::TYPED_CONSTRUCTOR, kinds::TYPED_FUNCTION];
    let in_nodes = kinds::NODES.into_iter().filter(|&kind| kind != kinds::IF);
    let parents = [
        kinds::OPERATOR,
        kinds::IF,
        kinds::CALL,
        kinds::BUILD,
        kinds::CASE,
    ];
    let beyond = parents
        .into_iter()
        .chain([kinds::READING, kinds::PARAMETER]);
    let due = sections.into_iter().chain(typed).chain(in_nodes);
    for kind in due.chain(beyond.map(|kind| 100 + kind)) {
        let count = places.get(&kind).copied().unwrap_or(0);
        assert!(count >= 10, "{kind}: {places:?}");
    }
}

#[test]
fn pairs_are_told_apart() {
    let sheet = |readings: u16, left: Expr, right: Expr| Program {
        readings,
        arities: vec![],
        functions: vec![(0, operator(ADD, left, right)), (1, parameter(0))],
    };
    let file = sheet(2, number(1), reading(0)).encode();
    let last = |bound: usize| bound - 1;
    let same = sheet(2, number(1), reading(0)).encode_shuffled(last);
    assert_eq!(pair_of(&file, &same), Some(Pair::Renumbered));
    assert_eq!(pair_of(&file, &file), None);
    let others = [
        sheet(3, number(1), reading(0)),
        sheet(2, number(2), reading(0)),
        sheet(2, number(1), reading(1)),
        sheet(2, reading(0), number(1)),
        sheet(2, number(1), call(1, vec![reading(0)])),
    ];
    for other in others {
        let other = other.encode();
        assert_eq!(pair_of(&file, &other), Some(Pair::Different));
        let refused = [&other[..], &[0]].concat();
        assert_eq!(pair_of(&file, &refused), None);
    }
    assert_eq!(pair_of(&file, &[]), None);
}

/// How many nodes stand one below the other at most.
fn depth(sheet: &Sheet) -> usize {
    let mut depths = vec![1; sheet.nodes.len()];
    for (number, node) in sheet.nodes.iter().enumerate() {
        node.each_child(|child| depths[number] = depths[number].max(1 + depths[child as usize]));
    }
    depths.into_iter().max().unwrap_or(0)
}

#[test]
fn deep_sheets_are_deep() {
    let [mut typed, mut thin, mut half, mut most] = [0; 4];
    for seed in 0..200 {
        let file = deep::deep(&mut Random::new(seed));
        let sheet = Correct.read_sheet(&file).expect("accepted");
        let depth = depth(&sheet);
        assert!(depth >= 60, "{depth}");
        typed += sheet.types.is_some() as u32;
        thin += (depth >= MOST_NODES - 15) as u32;
        half += (400..600).contains(&depth) as u32;
        most += (sheet.nodes.len() >= MOST_NODES - 8) as u32;
    }
    assert!(typed.min(thin).min(half).min(most) >= 20);
}
