//! Faults in the run.

use super::fault::Fault;
use super::Faulty;
use crate::interface::Allowances;
use crate::model::answer::Answer;
use crate::model::cells::Value;
use crate::model::run::{bad_allowance, Run};
use crate::model::translation::Translation;
use crate::model::Refusal;
use zifnora::kinds::operators::{ADD, DIVIDE, LESS, MULTIPLY};
use zifnora::numbers;
use zifnora::sizes::MOST_CELLS;

/// 10 in place of 9 where both hold.
pub fn allowance_first(
    result: Result<Translation, Refusal>,
    allowances: Allowances,
    lent: usize,
) -> Result<Translation, Refusal> {
    result.map_err(|refusal| {
        let both = refusal.number == numbers::BAD_READINGS && bad_allowance(allowances, lent);
        match both {
            true => Refusal::new(numbers::BAD_ALLOWANCE, 0),
            false => refusal,
        }
    })
}

/// Whether a fault takes allowances for bad.
pub fn wrong_allowance(fault: Fault, allowances: Allowances, lent: usize) -> bool {
    match fault {
        Fault::CellCeiling => {
            let cells = allowances.cells.min(MOST_CELLS);
            bad_allowance(
                Allowances {
                    cells,
                    ..allowances
                },
                lent,
            )
        }
        Fault::LentByteShort => bad_allowance(allowances, lent + 1),
        _ => bad_allowance(allowances, lent),
    }
}

/// One cell or one open visit more than is allowed.
pub fn raised(fault: Fault, allowances: Allowances) -> Allowances {
    Allowances {
        cells: allowances.cells + (fault == Fault::CellLimit) as u32,
        nesting: allowances.nesting + (fault == Fault::NestingLimit) as u32,
        ..allowances
    }
}

/// Counts a stopped visit as a step.
pub fn count_stopped(answer: Answer) -> Answer {
    let before_step = [numbers::NO_STEP, numbers::NO_NESTING].contains(&answer.outcome);
    Answer {
        steps: answer.steps.wrapping_add(before_step as u32),
        ..answer
    }
}

/// 18 for 19, and 19 for 18.
pub fn exchange_faults(answer: Answer) -> Answer {
    let outcome = match answer.outcome {
        numbers::NO_ACTUAL => numbers::NO_FIELD,
        numbers::NO_FIELD => numbers::NO_ACTUAL,
        other => other,
    };
    Answer { outcome, ..answer }
}

/// Visits the fields of a tuple.
pub fn visit_fields(run: &mut Run<Faulty>, node: u16, context: u16, open: u32) -> Result<(), u16> {
    for field in run.tuple(node).1.to_vec() {
        run.visit(field, context, open + 1)?;
    }
    Ok(())
}

/// Visits both operands before the left one is looked at.
pub fn both_operands(
    run: &mut Run<Faulty>,
    (left, right): (u16, u16),
    context: u16,
    open: u32,
) -> Result<(i32, i32), u16> {
    let left = run.visit(left, context, open + 1)?;
    let right = run.visit(right, context, open + 1)?;
    match (left, right) {
        (Value::Number(left), Value::Number(right)) => Ok((left, right)),
        _ => Err(numbers::NUMBER_WANTED),
    }
}

/// The result of an operator that a fault gives in place of the right one.
pub fn wrong_result(fault: Fault, code: u16, left: i32, right: i32) -> Option<Result<i32, u16>> {
    let lowest = left == i32::MIN && right == -1;
    let product = i64::from(left) * i64::from(right);
    match (fault, code) {
        (Fault::SaturatingAdd, ADD) => Some(Ok(left.saturating_add(right))),
        (Fault::SumOverflow, ADD) => Some(left.checked_add(right).ok_or(numbers::OVERFLOW)),
        (Fault::ProductReduced, MULTIPLY) => Some(Ok(left.wrapping_mul(right))),
        (Fault::RangeTop, MULTIPLY) if product == 1 << 31 => Some(Ok(i32::MIN)),
        (Fault::RangeBottom, MULTIPLY) if product == -1 << 31 => Some(Err(numbers::OVERFLOW)),
        (Fault::UnsignedLess, LESS) => Some(Ok(((left as u32) < right as u32) as i32)),
        (Fault::LowestByMinusOne, DIVIDE) if lowest => Some(Ok(0)),
        (Fault::DivideDown, DIVIDE) if right != 0 && !lowest => {
            let down = left % right != 0 && (left < 0) != (right < 0);
            Some(Ok(left / right - down as i32))
        }
        _ => None,
    }
}
