//! The generators of searches make what they say.

use super::case::translated;
use super::random::Random;
use super::search;
use super::search_sheet::by_one_reading;
use crate::interface::{Allowances, Search};
use crate::model::answer::Answer;
use crate::model::search::bad_range;
use crate::model::{translation, Behaviour, Correct};
use zifnora::numbers::{is_fault, is_stop, CONSTRUCTOR, NUMBER};
use zifnora::sizes::MOST_VALUES;

fn of(position: u32, (lowest, highest): (i32, i32)) -> Search {
    Search {
        position,
        lowest,
        highest,
        wanted: 0,
    }
}

#[test]
fn ranges_have_their_values() {
    let mut random = Random::new(1);
    let [mut bad, mut most, mut one] = [0; 3];
    for _ in 0..5000 {
        let values = search::values(&mut random);
        let (lowest, highest) = search::range(&mut random, values);
        assert_eq!(highest as i64 - lowest as i64 + 1, values as i64);
        most += (values == MOST_VALUES) as u32;
        one += (values == 1) as u32;
        let range = search::bad_range(&mut random);
        bad += bad_range(of(0, range), 1) as u32;
        search::inside(&mut random, range);
    }
    assert!((4000..5000).contains(&bad), "{bad}");
    assert!(most >= 5 && one >= 300, "{most} {one}");
}

#[test]
fn positions() {
    let mut random = Random::new(2);
    let mut named = 0;
    for _ in 0..2000 {
        let due = random.between(1, 32);
        let used = random.bits() as u32;
        let position = search::position(&mut random, used, due);
        assert!((position as usize) < due);
        named += used >> position & 1;
        let position = search::bad_position(&mut random, due);
        assert!(bad_range(of(position, (0, 0)), due as u16));
        assert_eq!(search::position(&mut random, used, 0), 0);
    }
    assert!(named >= 1600, "{named}");
}

#[test]
fn sheets_answer_by_one_reading() {
    let allowances = Allowances {
        steps: 100,
        nesting: 50,
        cells: 20,
    };
    // Sheets with two outcomes or more, with a number several times, and with
    // fewer cells after more; and outcomes of all sorts.
    let [mut several, mut again, mut fewer] = [0; 3];
    let mut sorts = [0; 4];
    for seed in 0..400 {
        let mut random = Random::new(seed);
        let (program, position) = by_one_reading(&mut random);
        let file = translated(&program.encode());
        let read = translation::read(&Correct, &file).expect("accepted");
        let answers: Vec<_> = (-8..9)
            .map(|value| {
                let mut readings = vec![3; read.readings as usize];
                readings[position as usize] = value;
                Correct.run_accepted(&read, &readings, allowances, &mut [])
            })
            .collect();
        for answer in &answers {
            let outcome = answer.outcome;
            sorts[0] += (outcome == NUMBER) as u32;
            sorts[1] += (outcome == CONSTRUCTOR) as u32;
            sorts[2] += is_fault(outcome) as u32;
            sorts[3] += is_stop(outcome) as u32;
        }
        let ends = |answer: &Answer| (answer.outcome, answer.value);
        let mut pairs = answers.iter().zip(&answers[1..]);
        let numbers = pairs.clone().filter(|(one, _)| one.outcome == NUMBER);
        let same = numbers.filter(|(one, other)| ends(one) == ends(other));
        again += (same.count() > 0) as u32;
        several += pairs
            .clone()
            .any(|(one, other)| one.outcome != other.outcome) as u32;
        fewer += pairs.any(|(one, other)| one.cells > other.cells) as u32;
    }
    let least = several.min(again).min(fewer);
    assert!(least >= 80, "{several} {again} {fewer}");
    assert!(sorts.iter().all(|&count| count >= 400), "{sorts:?}");
}
