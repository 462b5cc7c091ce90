//! Faults in reading the typed records of a sheet.

use super::fault::Fault;
use super::Faulty;
use crate::generate::damage::records;
use crate::model::records::two_bytes;
use crate::model::sheet::{self, Sheet};
use crate::model::{types, Refusal};
use zifnora::kinds::sheet as kinds;
use zifnora::numbers::{BAD_COUNT, BAD_RECORD};
use zifnora::sizes::MOST_FIELDS;

/// A record that is refused.
struct Refused {
    start: usize,
    kind: u16,
    fields: usize,
    /// The number of fields that its count asks for, if it is a typed record
    /// with a count in range.
    due: Option<usize>,
}

/// Reads a sheet, and where a fault has a typed record for right, or for wrong in
/// another way, goes on as it does.
pub fn read(faulty: &Faulty, file: &[u8]) -> Result<Sheet, Refusal> {
    sheet::read(faulty, file).or_else(|refusal| {
        let taken = match refused(file, refusal.place) {
            Some(record) if refusal.number == BAD_RECORD => {
                bad_record(faulty.0, file, refusal, &record)
            }
            Some(record) if refusal.number == BAD_COUNT => {
                bad_count(faulty.0, file, refusal, &record)
            }
            _ => None,
        };
        match taken {
            Some(Taken::File(other)) => sheet::read(faulty, &other),
            Some(Taken::Refused(number, place)) => Err(Refusal::new(number, place)),
            None => Err(refusal),
        }
    })
}

/// What a fault takes a refused sheet for.
enum Taken {
    File(Vec<u8>),
    Refused(u16, u32),
}

fn refused(file: &[u8], place: u32) -> Option<Refused> {
    let (start, length) = *records(file).get(place as usize)?;
    let (kind, fields) = (two_bytes(file, start + 2), length / 2 - 2);
    let types = match kind {
        kinds::TYPED_CONSTRUCTOR => Some(2),
        kinds::TYPED_FUNCTION => Some(3),
        _ => None,
    };
    let count = (fields > 0).then(|| two_bytes(file, start + 4) as usize);
    let count = count.filter(|&count| count <= MOST_FIELDS);
    Some(Refused {
        start,
        kind,
        fields,
        due: types.zip(count).map(|(types, count)| types + count),
    })
}

/// A record whose kind is not due, or whose length is wrong.
fn bad_record(fault: Fault, file: &[u8], refusal: Refusal, record: &Refused) -> Option<Taken> {
    let kind_at = |place: usize| {
        records(file)
            .get(place)
            .map(|record| two_bytes(file, record.0 + 2))
    };
    let typed = kind_at(1).is_some_and(types::is_typed);
    let mixed = match record.kind {
        kinds::CONSTRUCTOR | kinds::FUNCTION => typed,
        kinds::TYPED_CONSTRUCTOR | kinds::TYPED_FUNCTION => !typed,
        _ => false,
    };
    let accepted = match fault {
        Fault::UntypedConstructorMixed => record.kind == kinds::CONSTRUCTOR,
        Fault::UntypedFunctionMixed => record.kind == kinds::FUNCTION,
        Fault::TypedConstructorMixed => record.kind == kinds::TYPED_CONSTRUCTOR,
        Fault::TypedFunctionMixed => record.kind == kinds::TYPED_FUNCTION,
        _ => false,
    };
    match fault {
        _ if mixed && accepted => Some(Taken::File(types::removed(file))),
        Fault::MixedAtFirst if mixed => Some(Taken::Refused(BAD_RECORD, 1)),
        Fault::TypedLengthAsCount if typed && is_due(file, refusal.place, record.kind) => {
            Some(Taken::Refused(BAD_COUNT, refusal.place))
        }
        _ => None,
    }
}

/// Whether a typed record is where it is due in a typed sheet.
fn is_due(file: &[u8], place: u32, kind: u16) -> bool {
    if place == 0 {
        return false;
    }
    let [constructors, functions] = [6, 8].map(|at| two_bytes(file, at) as u32);
    match kind {
        kinds::TYPED_CONSTRUCTOR => place <= constructors,
        kinds::TYPED_FUNCTION => place > constructors && place <= constructors + functions,
        _ => false,
    }
}

/// A typed record of which a count or a type is out of range, or the count is not
/// that of its length.
fn bad_count(fault: Fault, file: &[u8], refusal: Refusal, record: &Refused) -> Option<Taken> {
    let due = record.due.filter(|&due| due != record.fields)?;
    let (longer, constructor) = (record.fields > due, record.kind == kinds::TYPED_CONSTRUCTOR);
    let accepted = match fault {
        Fault::ConstructorTypesLonger => longer && constructor,
        Fault::ConstructorTypesShorter => !longer && constructor,
        Fault::FunctionTypesLonger => longer && !constructor,
        Fault::FunctionTypesShorter => !longer && !constructor,
        _ => false,
    };
    match fault {
        _ if accepted => Some(Taken::File(refitted(file, record, due))),
        Fault::TypesCountAsLength => Some(Taken::Refused(BAD_RECORD, refusal.place)),
        _ => None,
    }
}

/// The file with so many fields in a record, those that it lacks being 0.
fn refitted(file: &[u8], record: &Refused, fields: usize) -> Vec<u8> {
    let (before, after) = file.split_at(record.start);
    let (refused, after) = after.split_at(4 + 2 * record.fields);
    let mut refused = refused.to_vec();
    refused.resize(4 + 2 * fields, 0);
    refused[0] = refused.len() as u8;
    [before, &refused, after].concat()
}
