//! The greatest inputs that fit, with all cells kept and with cells given back.

use crate::measure::{agreed, lent_cells, long_cost, plain_run, translated};
use crate::programs::{self, Benchmark};
use crate::tables::all_kept;
use compare::interface::Interface;
use compare::model::correct;
use zifnora::numbers;

/// The steps that a run may take: some seconds.
const SOME_SECONDS: u32 = 400_000_000;

/// The greatest input up to which all runs end with a number.
struct Greatest {
    input: i32,
    file: Vec<u8>,
    /// How the run of the next one ends.
    next: u16,
}

fn greatest(benchmark: &Benchmark, outcome: impl Fn(&[u8]) -> u16) -> Greatest {
    let translation = |input| translated(correct(), &(benchmark.program)(input).encode());
    let mut input = 0;
    let mut file = translation(1);
    loop {
        let following = translation(input + 1);
        let next = outcome(&following);
        if next != numbers::NUMBER {
            assert!(input > 0, "{}: no input fits", benchmark.name);
            return Greatest { input, file, next };
        }
        (input, file) = (input + 1, following);
    }
}

/// The greatest inputs with all cells kept and now, and the cost of a run.
pub fn largest(subject: &dyn Interface) {
    println!("Programs of document 002, the greatest input up to which all runs end with a number");
    println!(
        "(nesting 1,024, cells 960, at most {SOME_SECONDS} steps), with all cells kept and now;"
    );
    println!("next: how the run of the next input ends");
    print!(
        "program    kept: input  cells   steps  next   now: input    value  cells      steps  next"
    );
    println!("   ns/step  plain  ratio         s");
    for benchmark in programs::all() {
        let kept = greatest(&benchmark, |file| all_kept(file).outcome);
        let now = greatest(&benchmark, |file| {
            plain_run(file, SOME_SECONDS, &mut lent_cells()).outcome
        });
        let before = all_kept(&kept.file);
        let answer = agreed(subject, &now.file);
        print!(
            "{:<9} {:>12} {:>6} {:>7} {:>5} {:>12} {:>8} {:>6} {:>10} {:>5}",
            benchmark.name,
            kept.input,
            before.cells,
            before.steps,
            kept.next,
            now.input,
            answer.value,
            answer.cells,
            answer.steps,
            now.next
        );
        let times = long_cost(subject, &now.file);
        let [step, plain] = times.map(|time| time / answer.steps as f64);
        println!(
            " {:>9.2} {:>6.2} {:>6.2} {:>9.4}",
            step,
            plain,
            step / plain,
            times[0] / 1e9
        );
    }
}
