//! Faults in the driver's view.

use super::fault::Fault;
use super::Faulty;
use crate::model::answer::{Answer, RECORD};
use crate::model::driver_view::{self, bytes, VIEW};
use crate::model::records::two_bytes;
use crate::model::{Refusal, ViewBehaviour};
use crate::viewed::in_table;
use zifnora::numbers::{
    is_fault, is_refusal, is_stop, BAD_RECORD, CONSTRUCTOR, NUMBER, SHORT_OUTPUT,
};

// As in `Behaviour`, each method is the model's own step but for the faults
// that it names.
impl ViewBehaviour for Faulty {
    fn driver_view(&self, record: &[u8], out: &mut [u8]) -> Result<usize, Refusal> {
        let result = driver_view::driver_view(self, record, out);
        match (self.0, result) {
            (Fault::ViewShortFirst, Err(_)) if out.len() < VIEW => {
                return Err(Refusal::new(SHORT_OUTPUT, 0));
            }
            (Fault::ViewKindPlaced, Err(_)) => return kind_placed(record, result),
            (Fault::ViewZeroReturned, Ok(_)) => return Ok(0),
            (Fault::ViewRoomReturned, Ok(_)) => return Ok(out.len()),
            (Fault::ViewBadRecordWritten, Err(refusal)) if refusal.number == BAD_RECORD => {
                write_what_fits(bytes(1, 0), out);
            }
            (Fault::ViewShortWritten, Err(refusal)) if refusal.number == SHORT_OUTPUT => {
                write_what_fits(bytes(1, 0), out);
            }
            (Fault::ViewPastWritten, Ok(_)) => {
                if let Some(past) = out.get_mut(VIEW) {
                    *past = 0;
                }
            }
            _ => {}
        }
        result
    }

    fn viewed_answer(&self, record: &[u8]) -> Option<Answer> {
        driver_view::viewed_answer(&taken(self.0, record))
    }

    fn view_fits(&self, room: usize) -> bool {
        match self.0 {
            Fault::ViewFiveBytes => room >= VIEW - 1,
            Fault::ViewSevenBytes => room > VIEW,
            Fault::ViewRoomIn8Bits => driver_view::view_fits(room as u8 as usize),
            Fault::ViewRoomIn16Bits => driver_view::view_fits(room as u16 as usize),
            _ => driver_view::view_fits(room),
        }
    }

    fn view(&self, answer: &Answer) -> [u8; VIEW] {
        wrong_end(self.0, answer)
            .or_else(|| wrong_number(self.0, answer))
            .unwrap_or_else(|| driver_view::view(answer))
    }

    fn write_view(&self, view: [u8; VIEW], out: &mut [u8]) {
        match self.0 {
            Fault::ViewFiveBytes => write_what_fits(view, out),
            Fault::ViewZerosNotWritten if view == bytes(1, 0) => out[..2].copy_from_slice(&[1, 0]),
            _ => driver_view::write_view(view, out),
        }
    }
}

/// Writes the start of a view that does not fit.
fn write_what_fits(view: [u8; VIEW], out: &mut [u8]) {
    let fits = out.len().min(VIEW);
    out[..fits].copy_from_slice(&view[..fits]);
}

/// 3 for the kind field at place 1.
fn kind_placed(record: &[u8], result: Result<usize, Refusal>) -> Result<usize, Refusal> {
    let length = record.len() == RECORD && two_bytes(record, 0) as usize == RECORD;
    result.map_err(|refusal| match length && refusal.number == BAD_RECORD {
        true => Refusal::new(BAD_RECORD, 1),
        false => refusal,
    })
}

/// The lent bytes as a fault takes them for a record.
fn taken(fault: Fault, record: &[u8]) -> Vec<u8> {
    let mut taken = record.to_vec();
    let mut assume = |at: usize, assumed: &[u8]| {
        if let Some(field) = taken.get_mut(at..at + assumed.len()) {
            field.copy_from_slice(assumed);
        }
    };
    match fault {
        Fault::ViewLengthUnchecked => assume(0, &[20, 0]),
        Fault::ViewLengthLowByte => assume(1, &[0]),
        Fault::ViewKindUnchecked => assume(2, &[64, 0]),
        Fault::ViewKindLowByte => assume(3, &[0]),
        Fault::ViewLongerTaken => taken.truncate(RECORD),
        Fault::ViewLentIn16Bits if record.len() as u16 as usize == RECORD => {
            taken.truncate(RECORD);
        }
        Fault::ViewCutTaken if (10..RECORD).contains(&record.len()) => taken.resize(RECORD, 0),
        Fault::ViewStatedLengthTaken
            if record.len() >= 10 && two_bytes(record, 0) as usize == record.len() =>
        {
            assume(0, &[20, 0]);
            taken.resize(RECORD, 0);
        }
        _ => {}
    }
    taken
}

/// What a fault shows of an answer that is no number.
fn wrong_end(fault: Fault, answer: &Answer) -> Option<[u8; VIEW]> {
    let Answer {
        outcome,
        value,
        steps,
        node,
        context,
        ..
    } = *answer;
    let constructor = outcome == CONSTRUCTOR;
    let known = in_table(outcome);
    let (holds, shown) = match fault {
        Fault::ViewTagAsNumber => (constructor, bytes(0, value)),
        Fault::ViewTagAfterOne => (constructor, bytes(1, value)),
        Fault::ViewNodeAfterOne => (constructor, bytes(1, node as i32 | (context as i32) << 16)),
        Fault::ViewFaultAsZero => (is_fault(outcome), bytes(0, 0)),
        Fault::ViewStopAsZero => (is_stop(outcome), bytes(0, 0)),
        Fault::ViewStepsAfterOne => (is_stop(outcome), bytes(1, steps as i32)),
        Fault::ViewRefusalAsZero => (is_refusal(outcome), bytes(0, 0)),
        Fault::ViewPlaceAfterOne => (is_refusal(outcome), bytes(1, value)),
        Fault::ViewOutcomeFirst => (outcome != NUMBER, bytes(outcome, 0)),
        Fault::ViewOutcomeAfterOne => (outcome != NUMBER, bytes(1, outcome as i32)),
        Fault::ViewUnknownAsNumber => (!known, bytes(0, value)),
        Fault::ViewUnknownAsZero => (!known, bytes(0, 0)),
        Fault::ViewOutcomeLowByte => (outcome as u8 == 0, bytes(0, value)),
        Fault::ViewOneReversed => (outcome != NUMBER, bytes(1 << 8, 0)),
        _ => return None,
    };
    holds.then_some(shown)
}

/// What a fault shows of a number.
fn wrong_number(fault: Fault, answer: &Answer) -> Option<[u8; VIEW]> {
    let value = answer.value;
    let shown = match fault {
        Fault::ViewNegativeHidden if value < 0 => bytes(1, 0),
        Fault::ViewZeroHidden if value == 0 => bytes(1, 0),
        Fault::ViewStepsShown => bytes(0, answer.steps as i32),
        Fault::ViewNumberIn16Bits => bytes(0, value as i16 as i32),
        Fault::ViewNumberReversed => bytes(0, value.swap_bytes()),
        Fault::ViewNumberAfterOne => bytes(1, value),
        _ => return None,
    };
    (answer.outcome == NUMBER).then_some(shown)
}
