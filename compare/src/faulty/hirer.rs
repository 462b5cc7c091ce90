//! Faults in the run for a hirer.

use super::fault::Fault;
use super::Faulty;
use crate::model::answer::Answer;
use crate::model::hirer::{self, Hire};
use crate::model::translation::{self, Node, Translation};
use crate::model::{run, Behaviour, HirerBehaviour, Refusal};
use zifnora::numbers::{BAD_ALLOWANCE, BAD_READINGS, CLOSED_READING};

// As in `Behaviour`, each method is the model's own step but for the faults
// that it names.
impl HirerBehaviour for Faulty {
    fn run_for_hirer(&self, file: &[u8], hire: Hire, lent: &mut [u8]) -> Answer {
        let answer = hirer::run_for_hirer(self, file, hire, lent);
        if answer.outcome != CLOSED_READING {
            return answer;
        }
        let owners = |readings: &[i32], lent| run::run(self, file, readings, hire.allowances, lent);
        match self.0 {
            Fault::HirerReachedOnly if !reaches_closed(self, file, hire, lent) => {
                owners(hire.readings, lent)
            }
            Fault::HirerClosedAsZero => owners(&zero_for_closed(hire), lent),
            Fault::HirerCellsWritten => {
                owners(hire.readings, lent);
                answer
            }
            _ => answer,
        }
    }

    fn accept_for_hirer(
        &self,
        file: &[u8],
        hire: Hire,
        lent: usize,
    ) -> Result<Translation, Refusal> {
        let first = match self.0 {
            Fault::HirerReadingsFirst => bad_input(self, file, hire, lent, BAD_READINGS),
            Fault::HirerAllowanceFirst => bad_input(self, file, hire, lent, BAD_ALLOWANCE),
            Fault::HirerBeforeReferences => closed_record(self, file, hire),
            Fault::HirerBitsPastRefused => bits_past(self, file, hire),
            Fault::HirerUnusedClosed => any_closed(self, file, hire),
            _ => None,
        };
        match first {
            Some(refusal) => Err(refusal),
            None => hirer::accept(self, file, hire, lent),
        }
    }

    fn closed_node(&self, translation: &Translation, set: u32) -> Option<usize> {
        let closed = |node: &Node| hirer::is_closed(self, node, set);
        match self.0 {
            Fault::HirerLastClosed => translation.nodes.iter().rposition(closed),
            Fault::HirerLowestClosed => lowest_closed(self, translation, set),
            _ => hirer::closed_node(self, translation, set),
        }
    }

    fn closed_place(&self, translation: &Translation, node: usize) -> u32 {
        match self.0 {
            Fault::HirerNodePlace => node as u32,
            _ => translation.record_of(node),
        }
    }

    fn reading_allowed(&self, set: u32, reading: u16) -> bool {
        match self.0 {
            Fault::HirerSetIgnored => true,
            Fault::HirerSetShifted => hirer::reading_allowed(set, reading + 1),
            Fault::HirerComplement => hirer::reading_allowed(!set, reading),
            Fault::HirerSetIn16Bits => hirer::reading_allowed(set as u16 as u32, reading),
            _ => hirer::reading_allowed(set, reading),
        }
    }
}

/// Whether the owner's run, if it is not refused, visits a closed reading:
/// with formals without actuals in place of them it then ends otherwise than
/// with numbers.
fn reaches_closed(faulty: &Faulty, file: &[u8], hire: Hire, lent: &[u8]) -> bool {
    let read = translation::read(faulty, file).expect("21 is after its refusals");
    if run::check_input(faulty, &read, hire.readings, hire.allowances, lent.len()).is_err() {
        return false;
    }
    let ends = |in_place: Node| {
        let mut changed = read.clone();
        changed.formals.push(vec![]);
        for node in &mut changed.nodes {
            if hirer::is_closed(faulty, node, hire.set) {
                *node = in_place.clone();
            }
        }
        let mut cells = lent.to_vec();
        faulty.run_accepted(&changed, hire.readings, hire.allowances, &mut cells)
    };
    ends(Node::Number(0)) != ends(Node::Formal(read.formals.len() as u16))
}

/// The readings with 0 for those that are closed.
fn zero_for_closed(hire: Hire) -> Vec<i32> {
    let reading = |(number, &reading): (usize, &i32)| {
        let allowed = hirer::reading_allowed(hire.set, number as u16);
        reading * allowed as i32
    };
    hire.readings.iter().enumerate().map(reading).collect()
}

/// What an accepted file is refused for by its input, if it is this number.
fn bad_input(
    faulty: &Faulty,
    file: &[u8],
    hire: Hire,
    lent: usize,
    number: u16,
) -> Option<Refusal> {
    let read = translation::read(faulty, file).ok()?;
    let refusal = run::check_input(faulty, &read, hire.readings, hire.allowances, lent).err()?;
    (refusal.number == number).then_some(refusal)
}

/// 21 of a file whose references may be out of range.
fn closed_record(faulty: &Faulty, file: &[u8], hire: Hire) -> Option<Refusal> {
    let read = translation::read_records(faulty, file).ok()?;
    let node = faulty.closed_node(&read, hire.set)?;
    Some(Refusal::new(CLOSED_READING, read.record_of(node)))
}

/// 21 for a set with bits from the number of readings on.
fn bits_past(faulty: &Faulty, file: &[u8], hire: Hire) -> Option<Refusal> {
    let read = translation::read(faulty, file).ok()?;
    let past = hire.set.checked_shr(read.readings as u32).unwrap_or(0);
    (past != 0).then_some(Refusal::new(CLOSED_READING, 0))
}

/// 21 where the set has not all readings that are asked for.
fn any_closed(faulty: &Faulty, file: &[u8], hire: Hire) -> Option<Refusal> {
    let read = translation::read(faulty, file).ok()?;
    let mut readings = 0..read.readings;
    let closed = readings.any(|reading| !hirer::reading_allowed(hire.set, reading));
    let used = faulty.closed_node(&read, hire.set).is_some();
    (closed && !used).then_some(Refusal::new(CLOSED_READING, 0))
}

/// The first node of the lowest closed reading.
fn lowest_closed(faulty: &Faulty, translation: &Translation, set: u32) -> Option<usize> {
    let nodes = translation.nodes.iter().enumerate();
    let closed = nodes.filter(|(_, node)| hirer::is_closed(faulty, node, set));
    let lowest = closed.min_by_key(|(_, node)| match node {
        Node::Reading(reading) => *reading,
        _ => u16::MAX,
    });
    lowest.map(|(number, _)| number)
}
