//! The driver's view of an answer record (document 02, request 10).

use super::answer::{Answer, RECORD};
use super::behaviour::ViewBehaviour;
use super::Refusal;
use zifnora::numbers::{BAD_RECORD, NUMBER, SHORT_OUTPUT};

/// "The cab shows 6 bytes".
pub const VIEW: usize = 6;

/// Writes the view of an answer record into `out`; its length. "3, then" 8,
/// "both with place 0".
pub fn driver_view<B: ViewBehaviour>(
    behaviour: &B,
    record: &[u8],
    out: &mut [u8],
) -> Result<usize, Refusal> {
    let refuse = |number| Refusal::new(number, 0);
    let answer = behaviour.viewed_answer(record);
    let answer = answer.ok_or(refuse(BAD_RECORD))?;
    if !behaviour.view_fits(out.len()) {
        return Err(refuse(SHORT_OUTPUT));
    }
    behaviour.write_view(behaviour.view(&answer), out);
    Ok(VIEW)
}

/// None of "lent bytes that aren't 20, or whose length or kind field isn't
/// document 01's".
pub fn viewed_answer(record: &[u8]) -> Option<Answer> {
    match record.len() {
        RECORD => Answer::from_record(record),
        _ => None,
    }
}

/// Not "an output below 6 bytes".
pub fn view_fits(room: usize) -> bool {
    room >= VIEW
}

/// "0 in two bytes and the number, or 1 in two bytes and four zero bytes for
/// anything else".
pub fn view(answer: &Answer) -> [u8; VIEW] {
    match answer.outcome {
        NUMBER => bytes(0, answer.value),
        _ => bytes(1, 0),
    }
}

/// Two bytes and four, little-endian.
pub fn bytes(first: u16, number: i32) -> [u8; VIEW] {
    let ([a, b], [c, d, e, f]) = (first.to_le_bytes(), number.to_le_bytes());
    [a, b, c, d, e, f]
}

pub fn write_view(view: [u8; VIEW], out: &mut [u8]) {
    out[..VIEW].copy_from_slice(&view);
}
