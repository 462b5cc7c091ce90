//! The generators of typed sheets make what they say.

use super::infer::infer;
use super::random::Random;
use super::sheet::{self, encoded};
use super::{damage, reached, typed, typed_ceiling, typed_damage};
use crate::interface::Allowances;
use crate::model::answer::Answer;
use crate::model::sheet::Sheet;
use crate::model::{Behaviour, Correct};
use std::collections::BTreeMap;
use zifnora::kinds::sheet as kinds;
use zifnora::numbers::*;

/// A run with ample allowances.
fn run(random: &mut Random, sheet: &Sheet) -> Answer {
    let allowances = Allowances {
        steps: 3000,
        nesting: 1024,
        cells: 960,
    };
    let readings: Vec<i32> = (0..sheet.readings).map(|_| random.number()).collect();
    Correct.run_accepted(&Correct.translate(sheet), &readings, allowances, &mut [])
}

#[test]
fn well_typed_sheets_are_accepted_and_run() {
    let [mut values, mut missing, mut none, mut data, mut top] = [0; 5];
    for seed in 0..1000 {
        let mut random = Random::new(seed);
        let file = typed::well_typed(&mut random);
        let sheet = Correct.read_sheet(&file).expect("accepted");
        let types = sheet.types.as_ref().expect("typed");
        let outcome = run(&mut random, &sheet).outcome;
        assert!(![NUMBER_WANTED, CONSTRUCTOR_WANTED].contains(&outcome));
        values += is_value(outcome) as u32;
        missing += (outcome == NO_CLAUSE) as u32;
        none += sheet.arities.is_empty() as u32;
        data += (types.functions[0].result != 0) as u32;
        top += types.constructors.iter().any(|of| of.result == 64) as u32;
    }
    let few = missing.min(none).min(data).min(top);
    assert!(
        values >= 600 && few >= 20,
        "{values} {missing} {none} {data} {top}"
    );
}

/// Types are found exactly where there are some.
#[test]
fn inferred_types() {
    let mut found = 0;
    for seed in 0..1000 {
        let mut random = Random::new(seed);
        let program = sheet::sheet(&mut random);
        let (typed, well_typed) = infer(&mut random, &program);
        let read = Correct.read_sheet(&typed.encode());
        let number = read.err().map(|refusal| refusal.number);
        assert_eq!(number, (!well_typed).then_some(ILL_TYPED));
        found += well_typed as u32;
        for make in [sheet::strict, sheet::tiny, reached::reached] {
            let program = make(&mut random);
            assert!(infer(&mut random, &program).1);
        }
    }
    assert!((300..=700).contains(&found), "{found}");
}

#[test]
fn runs_reach_what_is_to_be_reached() {
    for seed in 0..500 {
        let mut random = Random::new(seed);
        let file = encoded(&mut random, reached::reached);
        let sheet = Correct.read_sheet(&file).expect("accepted");
        assert_eq!(run(&mut random, &sheet).outcome, NUMBER);
    }
}

#[test]
fn greatest_typed_sheets_are_at_the_ceilings() {
    for seed in 0..50 {
        let file = typed_ceiling::greatest(&mut Random::new(seed));
        let read = Correct.read_sheet(&file).expect("accepted");
        assert_eq!((read.readings, read.nodes.len()), (32, 1024));
        assert_eq!(read.arities, [8; 64]);
        assert_eq!(read.parameters[1..], [8; 63]);
        let records = damage::records(&file);
        let of_kind = |kind: u16| {
            let lengths = records
                .iter()
                .filter(|record| damage::get(&file, record.0 + 2) == kind);
            lengths.map(|record| record.1).collect::<Vec<usize>>()
        };
        assert_eq!(of_kind(kinds::TYPED_CONSTRUCTOR), [24; 64]);
        assert_eq!(of_kind(kinds::TYPED_FUNCTION)[1..], [26; 63]);
    }
}

/// How many of 1,000 files are accepted (0) and refused with each number.
fn refusals(mut make: impl FnMut(&mut Random) -> Vec<u8>) -> BTreeMap<u16, u32> {
    let mut counts = BTreeMap::new();
    for seed in 0..1000 {
        let file = make(&mut Random::new(seed));
        let number = Correct
            .read_sheet(&file)
            .map_or_else(|refusal| refusal.number, |_| 0);
        *counts.entry(number).or_default() += 1;
    }
    counts
}

#[test]
fn changed_types_and_records() {
    let all_of = |counts: &BTreeMap<u16, u32>, numbers: &[u16], least: u32| {
        let often = |number: &u16| counts.get(number).is_some_and(|&count| count >= least);
        assert!(numbers.iter().all(often), "{numbers:?} {counts:?}");
    };
    let none_but = |counts: &BTreeMap<u16, u32>, numbers: &[u16]| {
        assert!(
            counts.keys().all(|number| numbers.contains(number)),
            "{counts:?}"
        );
    };
    let with = |change: fn(&mut Random, &mut Vec<u8>)| {
        refusals(|random| {
            let mut file = typed::well_typed(random);
            change(random, &mut file);
            file
        })
    };
    let changed = with(|random, file| typed_damage::change_type(random, file));
    all_of(&changed, &[0, BAD_COUNT, ILL_TYPED], 150);
    none_but(&changed, &[0, BAD_COUNT, ILL_TYPED]);
    // A sheet of one function has nothing that it is mixed with.
    let mixed = with(typed_damage::mix);
    none_but(&mixed, &[0, BAD_RECORD]);
    assert!(mixed[&BAD_RECORD] >= 900, "{mixed:?}");
    let relengthed = with(typed_damage::relength);
    all_of(&relengthed, &[BAD_RECORD, BAD_COUNT, BAD_ARGUMENTS], 50);
    for make in [typed::broken, typed::nearly, typed::guessed] {
        let counts = refusals(make);
        all_of(&counts, &[ILL_TYPED], 300);
        all_of(&counts, &[0], 20);
    }
}
