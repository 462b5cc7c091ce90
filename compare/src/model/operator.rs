//! Operators on signed 32-bit numbers.

use zifnora::kinds::operators::*;
use zifnora::numbers::{OVERFLOW, ZERO_DIVISOR};

/// The result, or the fault of a product out of range or of a zero divisor.
pub fn apply(code: u16, left: i32, right: i32) -> Result<i32, u16> {
    Ok(match code {
        ADD => left.wrapping_add(right),
        SUBTRACT => left.wrapping_sub(right),
        MULTIPLY => return left.checked_mul(right).ok_or(OVERFLOW),
        DIVIDE => return divide(left, right),
        LESS => (left < right) as i32,
        EQUAL => (left == right) as i32,
        _ => unreachable!("operator codes are checked when read"),
    })
}

/// Division towards zero; the lowest number by -1 gives itself.
fn divide(left: i32, right: i32) -> Result<i32, u16> {
    if right == 0 {
        return Err(ZERO_DIVISOR);
    }
    if left == i32::MIN && right == -1 {
        return Ok(i32::MIN);
    }
    Ok(left / right)
}
