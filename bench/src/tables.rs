//! What is printed.

use crate::measure::{greatest, rows_cost, run_cost, translate_cost, translated};
use crate::{pad, programs, templates};
use compare::generate::{ceiling, damage::records, random::Random};
use compare::interface::{Allowances, Interface};
use compare::model::answer::Answer;
use compare::model::{correct, kept, plain as forgetful, translation, Correct};
use zifnora::build_sheet::Program;
use zifnora::numbers;
use zifnora::sizes::{MOST_NESTING, MOST_NODES, MOST_ROWS, SHEET_BYTES};

const MOST_STEPS: u32 = 20_000_000;

pub fn nodes(program: &Program) -> usize {
    let functions = program.functions.iter();
    functions.map(|function| function.1.size()).sum()
}

/// The allowances of a run without remembering, with the cells that it could
/// have when cells remembered nothing.
const WITHOUT: Allowances = Allowances {
    steps: MOST_STEPS,
    nesting: MOST_NESTING,
    cells: 8192,
};

/// The answer of the rule without remembering.
fn without(file: &[u8]) -> Answer {
    let read = translation::read(&Correct, file).expect("accepted");
    forgetful::run(&read, &[], WITHOUT)
}

/// The answer of the rule that keeps all cells.
pub fn all_kept(file: &[u8]) -> Answer {
    let read = translation::read(&Correct, file).expect("accepted");
    kept::run(&read, &[], greatest(MOST_STEPS))
}

/// The greatest input whose run ends with a number within the limits, with all
/// cells kept, and without remembering.
fn fitting(benchmark: &programs::Benchmark) -> (i32, Program) {
    for &input in &benchmark.inputs {
        let program = (benchmark.program)(input);
        let file = translated(correct(), &program.encode());
        let ends = [all_kept(&file), without(&file)].map(|answer| answer.outcome);
        if ends == [numbers::NUMBER; 2] {
            return (input, program);
        }
    }
    panic!("{}: no input fits", benchmark.name)
}

/// The steps with and without remembering, and the cost of a step and of a run.
pub fn steps(subject: &dyn Interface) {
    println!("Programs of document 002, the greatest input that fits with all cells kept (nesting");
    println!("1,024, cells 960) and without remembering (nesting 1,024, cells 8,192)");
    print!("program   input  nodes  bytes      value  cells    steps  without: cells  steps  part");
    println!("   ns/step  plain  ratio    us/run");
    for benchmark in programs::all() {
        let (input, program) = fitting(&benchmark);
        let file = translated(subject, &program.encode());
        let before = without(&file);
        let cost = run_cost(subject, &file);
        print!(
            "{:<9} {:>5} {:>6} {:>6} {:>10} {:>6} {:>8} {:>15} {:>6} {:>5.2}",
            benchmark.name,
            input,
            nodes(&program),
            file.len(),
            cost.answer.value,
            cost.answer.cells,
            cost.answer.steps,
            before.cells,
            before.steps,
            cost.answer.steps as f64 / before.steps as f64
        );
        println!(
            " {:>9.2} {:>6.2} {:>6.2} {:>9.3}",
            cost.step,
            cost.plain_step,
            cost.step / cost.plain_step,
            cost.whole / 1000.0
        );
    }
}

/// The same program in files of several sizes: steps and accepting.
pub fn sizes(subject: &dyn Interface) {
    println!("fib 12 in files of several sizes (unused functions before or after its own)");
    println!("                              step                      accept");
    println!(
        "nodes padding  bytes      ns  plain  ratio  growth      ns  plain  ratio  decoded  ratio"
    );
    let program = programs::fib(12);
    let mut smallest = None;
    let before = [100, 300, 1000].map(|count| (count, true));
    let after = [100, 300, 1000].map(|count| (count, false));
    for (count, before) in [&[(20, false)], &before[..], &after[..]].concat() {
        let padded = pad::pad(&program, count, before);
        let file = translated(subject, &padded.encode());
        let cost = run_cost(subject, &file);
        let first = *smallest.get_or_insert(cost.step);
        print!(
            "{:>5} {:<7} {:>6} {:>7.2} {:>6.2} {:>6.2} {:>7.2}",
            nodes(&padded),
            if before { "before" } else { "after" },
            file.len(),
            cost.step,
            cost.plain_step,
            cost.step / cost.plain_step,
            cost.step / first
        );
        println!(
            " {:>7.0} {:>6.0} {:>6.2} {:>8.0} {:>6.2}",
            cost.accept,
            cost.plain_accept,
            cost.accept / cost.plain_accept,
            cost.plain_decode,
            cost.accept / cost.plain_decode
        );
    }
}

/// Accepting and translating a sheet, beside the model's translator, and asking
/// for its length, beside translating.
pub fn translations(subject: &dyn Interface) {
    println!("Accepting and translating a sheet (model: the independent one of compare)");
    println!("just: into a buffer of just its length; length: asked with none lent");
    print!("sheet                   nodes  bytes        ns  ns/node     model  ratio");
    println!("      just  ratio    length  ratio");
    let mut greatest = 0.0;
    let mut row = |name: &str, count: usize, sheet: &[u8]| {
        let [ours, just, length, theirs] = translate_cost(subject, correct(), sheet);
        print!(
            "{:<22} {:>6} {:>6} {:>9.0} {:>8.1} {:>9.0} {:>6.2}",
            name,
            count,
            sheet.len(),
            ours,
            ours / count as f64,
            theirs,
            ours / theirs
        );
        greatest = f64::max(greatest, ours / theirs);
        let [more, part] = [just, length].map(|time| time / ours);
        println!(" {just:>9.0} {more:>6.2} {length:>9.0} {part:>6.2}");
    };
    let program = programs::fib(12);
    for count in [20, 100, 300, 1000] {
        let padded = pad::pad(&program, count, false);
        row("fib 12, padded", nodes(&padded), &padded.encode());
    }
    row("greatest (all limits)", MOST_NODES, &greatest_sheet());
    for (name, program) in templates::all() {
        let sheet = program.encode();
        assert!(!translated(subject, &sheet).is_empty(), "{name}");
        row(name, nodes(&program), &sheet);
    }
    let refused = ceiling::long(&mut Random::new(1), SHEET_BYTES, false);
    row("refused (6), longest", records(&refused).len(), &refused);
    println!("the greatest ratio to the model's time: {greatest:.2} (goal: at most 3)");
}

/// A sheet at all limits.
pub fn greatest_sheet() -> Vec<u8> {
    ceiling::greatest(&mut Random::new(1))
}

/// Rows in one call, beside single runs.
pub fn rows(subject: &dyn Interface) {
    println!("{MOST_ROWS} rows in one call beside {MOST_ROWS} single runs");
    println!("sheet    nodes  bytes  steps/row   one call       runs  ratio");
    let sheets = [
        ("r0 + 1", programs::sum_of_reading(), 0),
        ("fib 12", programs::fib_of_reading(), 12),
    ];
    for (name, program, reading) in sheets {
        for count in [20, 1000] {
            let padded = pad::pad(&program, count, false);
            let file = translated(subject, &padded.encode());
            let ([all, single], answer) = rows_cost(subject, &file, reading);
            println!(
                "{:<8} {:>5} {:>6} {:>10} {:>10.0} {:>10.0} {:>6.2}",
                name,
                nodes(&padded),
                file.len(),
                answer.steps,
                all,
                single,
                all / single
            );
        }
    }
}
