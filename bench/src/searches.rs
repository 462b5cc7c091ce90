//! The search for a reading, beside single runs.

use crate::measure::{greatest, lent_cells, times, translated};
use crate::tables::nodes;
use crate::{pad, programs};
use compare::interface::{found, Interface, Search};
use compare::model::answer::{Answer, RECORD};
use std::hint::black_box;
use zifnora::build_sheet::{operator, reading, Program, ADD};
use zifnora::numbers;
use zifnora::sizes::MOST_VALUES;

/// r0 + fib 12, whose runs take as many steps for each value.
fn reading_and_fib() -> Program {
    let mut program = programs::fib(12);
    let (_, result) = &mut program.functions[0];
    *result = operator(ADD, reading(0), result.clone());
    Program {
        readings: 1,
        ..program
    }
}

/// The most values in one call, the highest of which does it.
pub fn searches(subject: &dyn Interface) {
    println!(
        "{MOST_VALUES} values in one call beside {MOST_VALUES} single runs; the highest does it"
    );
    println!("sheet        nodes  bytes  steps/run   one call       runs  ratio");
    let sheets = [
        ("r0 + 1", programs::sum_of_reading(), 1),
        ("r0 + fib 12", reading_and_fib(), 144),
    ];
    for (name, program, more) in sheets {
        for count in [20, 1000] {
            let padded = pad::pad(&program, count, false);
            let file = translated(subject, &padded.encode());
            let ([all, single], answer) = search_cost(subject, &file, more);
            println!(
                "{:<12} {:>5} {:>6} {:>10} {:>10.0} {:>10.0} {:>6.3}",
                name,
                nodes(&padded),
                file.len(),
                answer.steps,
                all,
                single,
                all / single
            );
        }
    }
}

/// Nanoseconds of one search of the most values, where a run gives its value and
/// `more`, and of as many single runs; and the answer of the last of these.
fn search_cost(on: &dyn Interface, file: &[u8], more: i32) -> ([f64; 2], Answer) {
    let highest = MOST_VALUES as i32 - 1;
    let search = Search {
        position: 0,
        lowest: 0,
        highest,
        wanted: highest + more,
    };
    let allowances = greatest(u32::MAX);
    let mut lent = [(); 2].map(|()| lent_cells());
    let (mut value, mut last) = (None, None);
    let [one, two] = lent.each_mut();
    let times = times([
        &mut || {
            let code = on.find_reading(black_box(file), &[0], search, allowances, one);
            value = found(code);
        },
        &mut || {
            last = (search.lowest..=search.highest).find_map(|value| {
                let mut record = [0; RECORD];
                on.run(black_box(file), &[value], allowances, two, &mut record);
                let answer = Answer::from_record(&record).expect("an answer record");
                let does = answer.outcome == numbers::NUMBER && answer.value == search.wanted;
                does.then_some((value, answer))
            });
        },
    ]);
    let (at, answer) = last.expect("the highest does it");
    assert_eq!((value, at), (Some(highest), highest), "the value found");
    assert_eq!(lent[0], lent[1], "the cells are the single runs'");
    (times, answer)
}
