//! Faults in writing a sheet in canonical form: in what is answered and left, and
//! in the sections. Those in the nodes are in `canonical_nodes.rs`.

use super::fault::Fault;
use super::{canonical_nodes, Faulty};
use crate::generate::damage::records;
use crate::model::canonical;
use crate::model::records::two_bytes;
use crate::model::sheet::{self, Node, Sheet};
use crate::model::{joined, types, CanonicalBehaviour, Refusal};
use zifnora::kinds::sheet as kinds;
use zifnora::numbers::{ILL_TYPED, SHORT_OUTPUT};
use zifnora::sizes::SHEET_BYTES;

// As in `Behaviour`, each method is the model's own step but for the faults
// that it names.
impl CanonicalBehaviour for Faulty {
    fn canonical_sheet(&self, file: &[u8], out: &mut [u8]) -> Result<usize, Refusal> {
        let last = out.get(file.len().wrapping_sub(1)).copied();
        match canonical::canonical_sheet(self, file, out) {
            Ok(length) => Ok(written(self.0, length, last, out)),
            Err(refusal) => refused(self, file, refusal, out),
        }
    }

    fn canonical_fits(&self, file: &[u8], room: usize) -> bool {
        match self.0 {
            Fault::CanonicalJustEnough => room > file.len(),
            Fault::CanonicalGreatestDue => room >= SHEET_BYTES,
            Fault::CanonicalTranslationDue => {
                let longer = joined::translated_length(self, file, room as u64).is_err();
                room >= file.len() && !longer
            }
            Fault::CanonicalRoomIn16Bits => canonical::canonical_fits(file, room as u16 as usize),
            _ => canonical::canonical_fits(file, room),
        }
    }

    fn canonical(&self, file: &[u8], sheet: &Sheet) -> Vec<u8> {
        match self.0 {
            Fault::CanonicalNumberRight => {
                canonical::canonical(self, file, &canonical_nodes::numbers_right(sheet))
            }
            _ => canonical::canonical(self, file, sheet),
        }
    }

    fn canonical_sections(&self, file: &[u8], sheet: &Sheet) -> Vec<u8> {
        let mut sections = canonical::sections(file, sheet).to_vec();
        match self.0 {
            Fault::CanonicalReadingsCounted => count_readings(sheet, &mut sections),
            Fault::CanonicalTypesRemoved => sections = types::removed(&sections),
            Fault::CanonicalTypesRenumbered => renumber_types(&mut sections),
            _ => {}
        }
        sections
    }

    fn canonical_order(&self, sheet: &Sheet) -> Vec<u16> {
        let right = || canonical::order(self, sheet);
        canonical_nodes::order(self.0, sheet, right)
    }

    fn canonical_children(&self, node: &Node) -> Vec<u16> {
        canonical_nodes::children(self.0, node)
    }

    fn canonical_node(&self, sheet: &Sheet, node: u16, numbers: &[u16]) -> Node {
        canonical_nodes::node(self.0, sheet, node, numbers)
    }
}

/// The answer of a call that has written so many bytes, where the last of them was
/// another before; what it leaves otherwise.
fn written(fault: Fault, length: usize, last: Option<u8>, out: &mut [u8]) -> usize {
    match fault {
        Fault::CanonicalPastWritten => {
            if let Some(past) = out.get_mut(length) {
                *past = 0;
            }
        }
        Fault::CanonicalLastUnwritten => {
            if let Some(last) = last {
                out[length - 1] = last;
            }
        }
        Fault::CanonicalZeroReturned => return 0,
        Fault::CanonicalRoomReturned => return out.len(),
        _ => {}
    }
    length
}

/// The answer of a call that is refused; what it leaves otherwise.
fn refused(
    faulty: &Faulty,
    file: &[u8],
    refusal: Refusal,
    out: &mut [u8],
) -> Result<usize, Refusal> {
    let short = refusal.number == SHORT_OUTPUT;
    let ill_typed = refusal.number == ILL_TYPED;
    let below = out.len() < file.len();
    match faulty.0 {
        Fault::CanonicalOneShort if short && out.len() + 1 == file.len() => {
            write_what_fits(&form(faulty, file), out);
            return Ok(file.len());
        }
        Fault::CanonicalShortFirst if below => return Err(Refusal::new(SHORT_OUTPUT, 0)),
        Fault::CanonicalShortBeforeTypes if ill_typed && below => {
            return Err(Refusal::new(SHORT_OUTPUT, 0));
        }
        Fault::CanonicalIllTypedWritten if ill_typed && !below => {
            write_what_fits(&form(faulty, file), out);
            return Ok(file.len());
        }
        Fault::CanonicalShortPlaced if short => {
            return Err(Refusal::new(SHORT_OUTPUT, file.len() as u32));
        }
        Fault::CanonicalPlaceLost => return Err(Refusal::new(refusal.number, 0)),
        Fault::CanonicalRefusedWrites if !short => write_what_fits(file, out),
        Fault::CanonicalShortWrites if short => write_what_fits(&form(faulty, file), out),
        _ => {}
    }
    Err(refusal)
}

/// The canonical form of a sheet that is accepted but for its types.
fn form(faulty: &Faulty, file: &[u8]) -> Vec<u8> {
    let sheet = sheet::read(faulty, &types::removed(file)).expect("accepted without types");
    canonical::canonical(faulty, file, &sheet)
}

/// Writes the start of what does not fit.
fn write_what_fits(form: &[u8], out: &mut [u8]) {
    let fits = out.len().min(form.len());
    out[..fits].copy_from_slice(&form[..fits]);
}

/// No more readings in the head than nodes name.
fn count_readings(sheet: &Sheet, sections: &mut [u8]) {
    let named = sheet.nodes.iter().map(|node| match node {
        Node::Reading(reading) => reading + 1,
        _ => 0,
    });
    let readings = named.max().unwrap_or(0);
    sections[4..6].copy_from_slice(&readings.to_le_bytes());
}

/// Types numbered from 1 on in the order in which they come.
fn renumber_types(sections: &mut [u8]) {
    let mut known = vec![types::NUMBER];
    for (start, length) in records(sections) {
        let first = match two_bytes(sections, start + 2) {
            kinds::TYPED_CONSTRUCTOR => start + 6,
            kinds::TYPED_FUNCTION => start + 8,
            _ => continue,
        };
        for at in (first..start + length).step_by(2) {
            let of = two_bytes(sections, at);
            let place = known.iter().position(|&other| other == of);
            let number = place.unwrap_or_else(|| {
                known.push(of);
                known.len() - 1
            });
            sections[at..at + 2].copy_from_slice(&(number as u16).to_le_bytes());
        }
    }
}
