//! Faults in translating, in asking for the length, in the joined call and in
//! listing a context.

use super::fault::Fault;
use super::Faulty;
use crate::model::answer::Answer;
use crate::model::cells::FIRST_ENTRY;
use crate::model::records::two_bytes;
use crate::model::sheet::Sheet;
use crate::model::translation::{Node, Translation};
use crate::model::{joined, listing, types, Behaviour, Refusal};
use zifnora::numbers::{is_refusal, BAD_READINGS, ILL_TYPED, SHORT_OUTPUT};
use zifnora::sizes::{CELL_BYTES, LABEL_BYTES, TRANSLATION_BYTES};

/// Select's index is the position.
pub fn lower_indices(mut translation: Translation) -> Translation {
    for node in &mut translation.nodes {
        if let Node::Select { index, .. } = node {
            *index -= 1;
        }
    }
    translation
}

/// Writes zeros past the translation.
pub fn clear_past(result: Result<usize, Refusal>, out: &mut [u8]) -> Result<usize, Refusal> {
    let length = result?;
    out[length..].fill(0);
    Ok(length)
}

/// Writes the start of a translation that does not fit.
pub fn write_what_fits(
    faulty: &Faulty,
    file: &[u8],
    result: Result<usize, Refusal>,
    out: &mut [u8],
) -> Result<usize, Refusal> {
    if result == Err(Refusal::new(SHORT_OUTPUT, 0)) {
        let mut whole = vec![0; TRANSLATION_BYTES];
        joined::translate_into(faulty, file, &mut whole)?;
        out.copy_from_slice(&whole[..out.len()]);
    }
    result
}

/// The stated length as a fault takes it.
pub fn stated(fault: Fault, room: u64) -> u64 {
    match fault {
        Fault::LengthJustEnough => room.saturating_sub(1),
        Fault::LengthOneShort => room.saturating_add(1),
        Fault::LengthIn32Bits => room as u32 as u64,
        _ => room,
    }
}

/// A refusal without its place.
pub fn at_zero(result: Result<usize, Refusal>) -> Result<usize, Refusal> {
    result.map_err(|refusal| Refusal::new(refusal.number, 0))
}

/// 8 in place of any refusal for a buffer of no bytes.
pub fn short_first(result: Result<usize, Refusal>, room: u64) -> Result<usize, Refusal> {
    match room {
        0 => Err(Refusal::new(SHORT_OUTPUT, 0)),
        _ => result,
    }
}

/// 8 in place of 22 for a buffer that is shorter than the translation would be.
pub fn types_after_room(
    faulty: &Faulty,
    file: &[u8],
    room: u64,
    result: Result<usize, Refusal>,
) -> Result<usize, Refusal> {
    let is = |result: Result<usize, Refusal>, number: u16| {
        result.is_err_and(|refusal| refusal.number == number)
    };
    let untyped = joined::translated_length(faulty, &types::removed(file), room);
    match is(result, ILL_TYPED) && is(untyped, SHORT_OUTPUT) {
        true => untyped,
        false => result,
    }
}

/// The length with the bytes of the types.
pub fn counting_types(file: &[u8], result: Result<usize, Refusal>) -> Result<usize, Refusal> {
    result.map(|length| length + file.len() - types::removed(file).len())
}

/// The result types of a typed sheet's functions as their parameter counts.
pub fn result_types_as_parameters(sheet: &Sheet, mut translation: Translation) -> Translation {
    if let Some(types) = &sheet.types {
        let results = types.functions.iter().map(|function| function.result);
        translation.parameters = results.collect();
    }
    translation
}

/// Writes the translation of a sheet whose run is refused.
pub fn write_if_refused(faulty: &Faulty, file: &[u8], answer: Answer, out: &mut [u8]) -> Answer {
    if is_refusal(answer.outcome) {
        // The answer has the refusal already.
        let _ = faulty.translate_into(file, out);
    }
    answer
}

/// 9, where the sheet is accepted and the readings are not as many as due.
pub fn bad_readings(faulty: &Faulty, file: &[u8], readings: &[i32]) -> Option<Refusal> {
    let sheet = faulty.read_sheet(file).ok()?;
    let wrong = sheet.readings as usize != readings.len();
    wrong.then_some(Refusal::new(BAD_READINGS, 0))
}

/// The labels in the other order.
pub fn list_oldest_first(lent: &[u8], cell: u32, out: &mut [u8]) -> Result<u32, Refusal> {
    let count = listing::list(lent, cell, out)?;
    let labels = &mut out[..LABEL_BYTES * count as usize];
    labels.reverse();
    labels
        .chunks_exact_mut(LABEL_BYTES)
        .for_each(<[u8]>::reverse);
    Ok(count)
}

/// The previous number of a damaged cell as its place.
pub fn list_other_place(lent: &[u8], cell: u32, out: &mut [u8]) -> Result<u32, Refusal> {
    listing::list(lent, cell, out).map_err(|refusal| {
        let cells: Vec<&[u8]> = lent.chunks_exact(CELL_BYTES).collect();
        let damaged = match refusal.place {
            0 => None,
            place => cells.get(place as usize - 1),
        };
        let place = damaged.map_or(refusal.place, |cell| two_bytes(cell, 2) as u32);
        Refusal::new(refusal.number, place)
    })
}

/// Takes label and previous past the last whole cell for a cell.
pub fn list_part_cell(lent: &[u8], cell: u32, out: &mut [u8]) -> Result<u32, Refusal> {
    let mut longer = lent.to_vec();
    if lent.len() % CELL_BYTES >= FIRST_ENTRY {
        longer.resize(lent.len().next_multiple_of(CELL_BYTES), 0);
    }
    listing::list(&longer, cell, out)
}

/// Takes label and previous alone for a cell.
pub fn list_short_cells(lent: &[u8], cell: u32, out: &mut [u8]) -> Result<u32, Refusal> {
    let mut cells = Vec::new();
    for short in lent.chunks_exact(FIRST_ENTRY) {
        cells.extend_from_slice(short);
        cells.resize(cells.len() + CELL_BYTES - FIRST_ENTRY, 0);
    }
    listing::list(&cells, cell, out)
}
