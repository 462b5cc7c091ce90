//! Runs a sheet with two readings and prints the answer.
//!
//!   result = cold(r0, r1)
//!   cold(p, t) = if t < 20 then p else p - (t - 20) * 2
//!
//! r0 is a pressure in hundredths of a bar, r1 a temperature in degrees.

use zifnora::build_sheet::*;
use zifnora::sizes::{CELL_BYTES, TRANSLATION_BYTES};
use zifnora::{translate_and_run, Allowances, Answer};

fn main() {
    let (p, t) = (|| parameter(0), || parameter(1));
    let above = operator(SUBTRACT, t(), number(20));
    let warm = operator(SUBTRACT, p(), operator(MULTIPLY, above, number(2)));
    let cold = if_else(operator(LESS, t(), number(20)), p(), warm);
    let sheet = Program {
        readings: 2,
        arities: vec![],
        functions: vec![(0, call(1, vec![reading(0), reading(1)])), (2, cold)],
    };
    let allowances = Allowances {
        steps: 1000,
        nesting: 100,
        cells: 100,
    };
    let mut translation = vec![0; TRANSLATION_BYTES];
    let mut cells = [0; 100 * CELL_BYTES];
    let ended = translate_and_run(
        &sheet.encode(),
        &mut translation,
        &[845, 31],
        allowances,
        &mut cells,
    );
    match ended.answer {
        Answer::Number(number) => println!(
            "number {number} steps {} cells {}",
            ended.steps, ended.cells
        ),
        other => println!("{other:?}"),
    }
}
