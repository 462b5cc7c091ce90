//! Translating into lent bytes, how long it would be, and the joined call.

use super::answer::Answer;
use super::{run, translation, Behaviour, Refusal};
use crate::interface::Allowances;
use zifnora::numbers::{is_refusal, SHORT_OUTPUT};

/// The translation of a sheet, for a buffer of `room` bytes.
fn translated<B: Behaviour>(behaviour: &B, file: &[u8], room: u64) -> Result<Vec<u8>, Refusal> {
    let sheet = behaviour.read_sheet(file)?;
    let written = translation::write(&behaviour.translate(&sheet));
    if written.len() as u64 > room {
        return Err(Refusal::new(SHORT_OUTPUT, 0));
    }
    Ok(written)
}

/// Translates a sheet into `out`; the translation's length.
pub fn translate_into<B: Behaviour>(
    behaviour: &B,
    file: &[u8],
    out: &mut [u8],
) -> Result<usize, Refusal> {
    let written = translated(behaviour, file, out.len() as u64)?;
    out[..written.len()].copy_from_slice(&written);
    Ok(written.len())
}

/// What translating into a buffer of `room` bytes would answer.
pub fn translated_length<B: Behaviour>(
    behaviour: &B,
    file: &[u8],
    room: u64,
) -> Result<usize, Refusal> {
    Ok(translated(behaviour, file, room)?.len())
}

/// Translates into `out`, and runs the translation: the sheet's own refusals,
/// then 8, then 9, then 10. Any refusal leaves `out` as it was.
pub fn translate_and_run<B: Behaviour>(
    behaviour: &B,
    file: &[u8],
    out: &mut [u8],
    readings: &[i32],
    allowances: Allowances,
    cells: &mut [u8],
) -> Answer {
    let mut written = out.to_vec();
    let answer = match behaviour.translate_into(file, &mut written) {
        Err(refusal) => Answer::refused(refusal),
        Ok(length) => run::run(behaviour, &written[..length], readings, allowances, cells),
    };
    if !is_refusal(answer.outcome) {
        out.copy_from_slice(&written);
    }
    answer
}
