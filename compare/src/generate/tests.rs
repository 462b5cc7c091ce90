//! The generators make what they say.

use super::case::{well_formed, Case};
use super::random::Random;
use super::sheet::encoded;
use super::{answer_record, ceiling, foreign, given_back, regroup, sheet, template, translation};
use crate::interface::Allowances;
use crate::model::driver_view::viewed_answer;
use crate::model::translate::{translate, Labelling};
use crate::model::translation as read_translation;
use crate::model::{kept, Behaviour, Correct};
use zifnora::build_sheet::Program;
use zifnora::numbers::{BAD_TREE, NO_CELL, NUMBER};
use zifnora::sizes::{SHEET_BYTES, TRANSLATION_BYTES};

#[test]
fn well_formed_sheets_are_accepted() {
    for number in 0..2000 {
        let (Case::Sheet(file), _) = well_formed(3, number) else {
            panic!("a sheet")
        };
        let mut out = vec![0; TRANSLATION_BYTES];
        let length = Correct.translate_into(&file, &mut out);
        let length = length.expect("accepted and short enough");
        assert!(read_translation::read(&Correct, &out[..length]).is_ok());
    }
}

#[test]
fn calls_share_labels_often() {
    let sharing = |make: fn(&mut Random) -> Vec<u8>| {
        let shares = |seed: &u64| {
            let file = make(&mut Random::new(*seed));
            let sheet = Correct.read_sheet(&file).expect("accepted");
            let [now, each] = [Labelling::EqualCalls, Labelling::EachCall]
                .map(|labelling| translate(&Correct, &sheet, labelling));
            now != each
        };
        (0..200).filter(shares).count()
    };
    assert!(sharing(|random| encoded(random, template::template)) >= 190);
    assert!(sharing(ceiling::greatest) >= 150);
    assert!(sharing(|random| encoded(random, sheet::sheet)) >= 50);
}

#[test]
fn greatest_sheets_are_at_the_ceilings() {
    for seed in 0..50 {
        let file = ceiling::greatest(&mut Random::new(seed));
        let read = Correct.read_sheet(&file).expect("accepted");
        assert_eq!(
            (read.readings, read.arities.len(), read.counts.len()),
            (32, 64, 64)
        );
        assert!(read.nodes.len() >= 1023);
        assert!(read.parameters[1..].iter().all(|&count| count == 8));
    }
}

#[test]
fn long_files_have_their_length() {
    for seed in 0..50 {
        let file = ceiling::long(&mut Random::new(seed), SHEET_BYTES, false);
        assert_eq!(file.len(), SHEET_BYTES);
        let refusal = Correct.read_sheet(&file).unwrap_err();
        assert_eq!(refusal.number, BAD_TREE);
        let file = translation::longest(&mut Random::new(seed));
        assert_eq!(file.len(), TRANSLATION_BYTES);
        assert!(read_translation::read(&Correct, &file).is_ok());
    }
}

#[test]
fn random_translations_are_accepted() {
    for seed in 0..2000 {
        let file = translation::translation(&mut Random::new(seed));
        assert!(file.len() > TRANSLATION_BYTES || read_translation::read(&Correct, &file).is_ok());
    }
}

#[test]
fn foreign_and_regrouped_translations_are_accepted() {
    for seed in 0..500 {
        let mut random = Random::new(seed);
        let file = foreign::foreign(&mut random);
        assert!(read_translation::read(&Correct, &file).is_ok());
        let file = encoded(&mut random, sheet::sheet);
        let sheet = Correct.read_sheet(&file).unwrap();
        let before = Correct.translate(&sheet);
        let mut file = read_translation::write(&before);
        regroup::regroup(&mut random, &mut file);
        let after = read_translation::read(&Correct, &file).expect("accepted");
        assert_eq!(after.formals, before.formals);
    }
}

#[test]
fn runs_give_cells_back_and_keep_some() {
    let allowances = Allowances {
        steps: 40_000,
        nesting: 1024,
        cells: 960,
    };
    // How many runs have fewer cells than with all kept, and how many answer
    // where that stops with 13.
    let counts = |make: fn(&mut Random) -> Program| {
        let [mut fewer, mut further] = [0; 2];
        for seed in 0..200 {
            let file = encoded(&mut Random::new(seed), make);
            let sheet = Correct.read_sheet(&file).expect("accepted");
            let translation = Correct.translate(&sheet);
            let answer = Correct.run_accepted(&translation, &[1, 2], allowances, &mut []);
            let kept = kept::run(&translation, &[1, 2], allowances);
            fewer += (answer.cells < kept.cells) as u32;
            further += (kept.outcome == NO_CELL && answer.is_own()) as u32;
        }
        (fewer, further)
    };
    let (fewer, further) = counts(given_back::numbers);
    assert!(fewer >= 150 && further >= 10, "{fewer} {further}");
    let (fewer, further) = counts(given_back::lists);
    assert!(fewer >= 100 && further >= 5, "{fewer} {further}");
}

#[test]
fn near_misses_and_damaged_records() {
    let mut random = Random::new(5);
    let [mut numbers, mut value, mut outcome, mut both] = [0; 4];
    for _ in 0..2000 {
        let answer = answer_record::any(&mut random);
        let near = answer_record::near(&mut random, &answer);
        let same = (near.outcome == answer.outcome, near.value == answer.value);
        numbers += (answer.outcome == NUMBER) as u32;
        outcome += (same == (true, false)) as u32;
        value += (same == (false, true)) as u32;
        both += (same == (true, true) && near != answer) as u32;
        assert_eq!(viewed_answer(&near.record()), Some(near));
        let damaged = answer_record::damaged(&mut random, &answer);
        assert_eq!(viewed_answer(&damaged), None);
    }
    let least = numbers.min(value).min(outcome).min(both);
    assert!(least >= 300, "{numbers} {value} {outcome} {both}");
}
