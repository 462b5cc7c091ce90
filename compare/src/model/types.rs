//! The types that a typed sheet gives (document 02, request 11), and the sheet
//! with its types removed.

use super::records::{two_bytes, Record};
use super::TypeBehaviour;
use zifnora::kinds::sheet as kinds;

/// The type of numbers.
pub const NUMBER: u16 = 0;

/// The greatest type.
const GREATEST: u16 = 64;

/// The types of a constructor or a function.
#[derive(Clone, Debug)]
pub struct Signature {
    /// The own type of a constructor, the result type of a function.
    pub result: u16,
    /// Of the fields or the parameters.
    pub parameters: Vec<u16>,
}

#[derive(Clone, Debug, Default)]
pub struct Types {
    pub constructors: Vec<Signature>,
    pub functions: Vec<Signature>,
}

impl Signature {
    /// The types in a record, from a field on.
    pub fn of(record: &Record, from: usize) -> Signature {
        Signature {
            result: record.field(from),
            parameters: record.fields(from + 1),
        }
    }

    /// Whether it has so many parameters, of types that are in range.
    pub fn takes<B: TypeBehaviour>(&self, behaviour: &B, count: u16) -> bool {
        let mut types = self.parameters.iter();
        self.parameters.len() == count as usize && types.all(|&of| behaviour.type_fits(of))
    }
}

/// "Types are 0 (number) and 1..64".
pub fn type_fits(of: u16) -> bool {
    of <= GREATEST
}

/// "own type from 1".
pub fn own_type_fits(of: u16) -> bool {
    of != NUMBER && type_fits(of)
}

/// Whether a sheet whose first record after the head has this kind is typed.
pub fn is_typed(kind: u16) -> bool {
    [kinds::TYPED_CONSTRUCTOR, kinds::TYPED_FUNCTION].contains(&kind)
}

/// A sheet's file with its types removed: kinds 2 and 3 with their own fields in
/// place of 6 and 7, and every other byte as it was.
pub fn removed(file: &[u8]) -> Vec<u8> {
    let (mut untyped, mut left) = (Vec::new(), file);
    while left.len() >= 4 {
        let length = two_bytes(left, 0) as usize;
        if length < 4 || length > left.len() {
            break;
        }
        let (record, after) = left.split_at(length);
        left = after;
        match two_bytes(record, 2) {
            kinds::TYPED_CONSTRUCTOR if length >= 6 => {
                untyped.extend_from_slice(&[6, 0, kinds::CONSTRUCTOR as u8, 0]);
                untyped.extend_from_slice(&record[4..6]);
            }
            kinds::TYPED_FUNCTION if length >= 8 => {
                untyped.extend_from_slice(&[8, 0, kinds::FUNCTION as u8, 0]);
                untyped.extend_from_slice(&record[4..8]);
            }
            _ => untyped.extend_from_slice(record),
        }
    }
    [&untyped[..], left].concat()
}
