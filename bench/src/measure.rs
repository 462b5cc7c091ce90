//! Times of the calls, in nanoseconds: the least of many short batches.

use crate::nodes::decode;
use crate::plain::accept;
use crate::run::{run, Ended};
use compare::interface::{count, Allowances, Interface};
use compare::model::answer::{Answer, RECORD};
use std::hint::black_box;
use std::time::Instant;
use zifnora::sizes::{CELL_BYTES, MOST_CELLS, MOST_NESTING, MOST_ROWS, TRANSLATION_BYTES};

const BATCHES: usize = 50;
const BATCH_NANOSECONDS: f64 = 2e6;
const LONG_RUNS: usize = 3;

/// Nanoseconds of one call of each work. The batches of the works take
/// turns, so that a busy machine disturbs all of them alike.
pub fn times<const COUNT: usize>(works: [&mut dyn FnMut(); COUNT]) -> [f64; COUNT] {
    let mut works = works;
    let repeats = works.each_mut().map(|work| repeats(work));
    let mut best = [f64::INFINITY; COUNT];
    for _ in 0..BATCHES {
        for at in 0..COUNT {
            let begin = Instant::now();
            (0..repeats[at]).for_each(|_| works[at]());
            best[at] = best[at].min(begin.elapsed().as_nanos() as f64 / repeats[at] as f64);
        }
    }
    best
}

/// How often a work fits into one batch.
fn repeats(work: &mut dyn FnMut()) -> u32 {
    let mut repeats = 1u32;
    loop {
        let begin = Instant::now();
        (0..repeats).for_each(|_| work());
        let spent = begin.elapsed().as_nanos() as f64;
        if spent >= BATCH_NANOSECONDS || repeats > 1 << 24 {
            return repeats;
        }
        let wanted = BATCH_NANOSECONDS / spent.max(1.0) * repeats as f64;
        repeats = (wanted * 1.1) as u32 + 1;
    }
}

/// The greatest allowances, with so many steps.
pub fn greatest(steps: u32) -> Allowances {
    Allowances {
        steps,
        nesting: MOST_NESTING,
        cells: MOST_CELLS,
    }
}

pub fn lent_cells() -> Vec<u8> {
    vec![0; CELL_BYTES * MOST_CELLS as usize]
}

/// One run through the interface.
pub fn interface_run(on: &dyn Interface, file: &[u8], steps: u32, cells: &mut [u8]) -> Answer {
    let mut record = [0; RECORD];
    on.run(black_box(file), &[], greatest(steps), cells, &mut record);
    Answer::from_record(&record).expect("an answer record")
}

/// One plain run, reading and decoding included.
pub fn plain_run(file: &[u8], steps: u32, cells: &mut [u8]) -> Ended {
    let index = accept(black_box(file)).expect("accepted");
    run(&decode(file, &index), &[], greatest(steps), cells)
}

/// Runs both; their common answer.
pub fn agreed(on: &dyn Interface, file: &[u8]) -> Answer {
    let (mut one, mut two) = (lent_cells(), lent_cells());
    let answer = interface_run(on, file, u32::MAX, &mut one);
    let ours = Ended {
        outcome: answer.outcome,
        value: answer.value,
        steps: answer.steps,
        cells: answer.cells,
    };
    let plain = plain_run(file, u32::MAX, &mut two);
    assert_eq!(ours, plain, "the two runs agree");
    assert_eq!(one, two, "the two runs leave the same cells");
    answer
}

/// Nanoseconds of the parts of runs of one translation.
pub struct RunCost {
    pub answer: Answer,
    /// A run without a step: the file read, checked and made ready.
    pub accept: f64,
    /// The plain reader: the file read and checked.
    pub plain_accept: f64,
    /// The plain reader, and the nodes decoded.
    pub plain_decode: f64,
    /// A run, all of it.
    pub whole: f64,
    /// A step.
    pub step: f64,
    pub plain_step: f64,
}

pub fn run_cost(on: &dyn Interface, file: &[u8]) -> RunCost {
    let answer = agreed(on, file);
    let index = accept(file).expect("accepted");
    let program = decode(file, &index);
    let mut lent = [(); 3].map(|()| lent_cells());
    let [one, two, three] = lent.each_mut();
    let [start, all, plain_accept, plain_decode, plain_all] = times([
        &mut || {
            black_box(interface_run(on, file, 0, one));
        },
        &mut || {
            black_box(interface_run(on, file, u32::MAX, two));
        },
        &mut || {
            black_box(accept(black_box(file)));
        },
        &mut || {
            let index = accept(black_box(file)).expect("accepted");
            black_box(decode(file, &index));
        },
        &mut || {
            black_box(run(&program, &[], greatest(u32::MAX), three));
        },
    ]);
    let steps = answer.steps as f64;
    RunCost {
        answer,
        accept: start,
        plain_accept,
        plain_decode,
        whole: all,
        step: (all - start) / steps,
        plain_step: plain_all / steps,
    }
}

/// Nanoseconds of a run, all of it, and of a plain one over decoded nodes: the
/// least of a few.
pub fn long_cost(on: &dyn Interface, file: &[u8]) -> [f64; 2] {
    let program = decode(file, &accept(file).expect("accepted"));
    let mut cells = lent_cells();
    let mut best = [f64::INFINITY; 2];
    for _ in 0..LONG_RUNS {
        let begin = Instant::now();
        black_box(interface_run(on, file, u32::MAX, &mut cells));
        best[0] = best[0].min(begin.elapsed().as_nanos() as f64);
        let begin = Instant::now();
        black_box(run(&program, &[], greatest(u32::MAX), &mut cells));
        best[1] = best[1].min(begin.elapsed().as_nanos() as f64);
    }
    best
}

/// Translates; the translation.
pub fn translated(on: &dyn Interface, sheet: &[u8]) -> Vec<u8> {
    let mut out = vec![0; TRANSLATION_BYTES];
    let length = count(on.translate(sheet, &mut out));
    out.truncate(length.expect("the sheet is accepted"));
    out
}

/// Nanoseconds of one translation into a buffer of the greatest length, of one
/// into a buffer of just its length, of asking for that length, and of one by
/// the model. A sheet may be refused; both sides have to answer the same.
pub fn translate_cost(on: &dyn Interface, model: &dyn Interface, sheet: &[u8]) -> [f64; 4] {
    let (mut one, mut two) = (vec![0; TRANSLATION_BYTES], vec![0; TRANSLATION_BYTES]);
    let answer = on.translate(sheet, &mut one);
    assert_eq!(answer, model.translate(sheet, &mut two), "the same answer");
    assert_eq!(one, two, "the same translation");
    let mut just = vec![0; count(answer).unwrap_or(TRANSLATION_BYTES)];
    let room = just.len() as u64;
    times([
        &mut || {
            black_box(on.translate(black_box(sheet), &mut one));
        },
        &mut || {
            black_box(on.translate(black_box(sheet), &mut just));
        },
        &mut || {
            black_box(on.translated_length(black_box(sheet), black_box(room)));
        },
        &mut || {
            black_box(model.translate(black_box(sheet), &mut two));
        },
    ])
}

/// The records of the most rows.
pub const MOST_RECORDS: usize = RECORD * MOST_ROWS as usize;

/// Nanoseconds of one call with the most rows, each of this reading, and of as
/// many single runs; and the answer of each row.
pub fn rows_cost(on: &dyn Interface, file: &[u8], reading: i32) -> ([f64; 2], Answer) {
    let readings = [reading; MOST_ROWS as usize];
    let allowances = greatest(u32::MAX);
    let mut lent = [(); 2].map(|()| lent_cells());
    let mut records = [[0; MOST_RECORDS]; 2];
    let ([one, two], [all, single]) = (lent.each_mut(), records.each_mut());
    let times = times([
        &mut || {
            on.run_rows(black_box(file), MOST_ROWS, &readings, allowances, one, all);
        },
        &mut || {
            for record in single.chunks_exact_mut(RECORD) {
                on.run(black_box(file), &[reading], allowances, two, record);
            }
        },
    ]);
    assert_eq!(records[0], records[1], "the records are the single runs'");
    assert_eq!(lent[0], lent[1], "the cells are the single runs'");
    let answer = Answer::from_record(&records[0]);
    (times, answer.expect("an answer record"))
}
