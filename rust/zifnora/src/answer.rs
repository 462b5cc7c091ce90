//! Answers: the record of kind 64, and the typed form of it.

use crate::kinds;
use crate::numbers;
use crate::sizes::ANSWER_BYTES;
use std::error::Error;
use std::fmt::{Display, Formatter, Result as Written};

/// The three allowances of a run.
#[derive(Clone, Copy, Debug, PartialEq, Eq)]
pub struct Allowances {
    pub steps: u32,
    pub nesting: u32,
    pub cells: u32,
}

/// A refusal's number with its place: the record's number from 0, the cell's
/// number for a listing, and 0 for the numbers 2, 8, 9, 10 and 23.
#[derive(Clone, Copy, Debug, PartialEq, Eq)]
pub struct Refusal {
    pub number: u16,
    pub place: u32,
}

impl Refusal {
    pub fn new(number: u16, place: u32) -> Refusal {
        Refusal { number, place }
    }
}

impl Display for Refusal {
    fn fmt(&self, formatter: &mut Formatter) -> Written {
        write!(formatter, "refused {} place {}", self.number, self.place)
    }
}

impl Error for Refusal {}

/// The allowance that ended a run.
#[derive(Clone, Copy, Debug, PartialEq, Eq)]
pub enum Stop {
    NoStep,
    NoNesting,
    NoCell,
}

impl Stop {
    pub const ALL: [Stop; 3] = [Stop::NoStep, Stop::NoNesting, Stop::NoCell];

    /// Its number in the table.
    pub fn number(self) -> u16 {
        match self {
            Stop::NoStep => numbers::NO_STEP,
            Stop::NoNesting => numbers::NO_NESTING,
            Stop::NoCell => numbers::NO_CELL,
        }
    }
}

/// The fault that ended a run.
#[derive(Clone, Copy, Debug, PartialEq, Eq)]
pub enum Fault {
    NumberWanted,
    ConstructorWanted,
    NoClause,
    ZeroDivisor,
    NoActual,
    NoField,
    Overflow,
}

impl Fault {
    pub const ALL: [Fault; 7] = [
        Fault::NumberWanted,
        Fault::ConstructorWanted,
        Fault::NoClause,
        Fault::ZeroDivisor,
        Fault::NoActual,
        Fault::NoField,
        Fault::Overflow,
    ];

    /// Its number in the table.
    pub fn number(self) -> u16 {
        match self {
            Fault::NumberWanted => numbers::NUMBER_WANTED,
            Fault::ConstructorWanted => numbers::CONSTRUCTOR_WANTED,
            Fault::NoClause => numbers::NO_CLAUSE,
            Fault::ZeroDivisor => numbers::ZERO_DIVISOR,
            Fault::NoActual => numbers::NO_ACTUAL,
            Fault::NoField => numbers::NO_FIELD,
            Fault::Overflow => numbers::OVERFLOW,
        }
    }
}

/// What a run ended with.
#[derive(Clone, Copy, Debug, PartialEq, Eq)]
pub enum Answer {
    Number(i32),
    /// Node and context (a cell's number) tell where it was built.
    Constructor {
        tag: u16,
        node: u16,
        context: u16,
    },
    Stopped(Stop),
    Fault(Fault),
    Refused(Refusal),
}

/// The end of a run: its answer, the steps taken and the most cells alive
/// together.
#[derive(Clone, Copy, Debug, PartialEq, Eq)]
pub struct Ended {
    pub answer: Answer,
    pub steps: u32,
    pub cells: u16,
}

/// The record of kind 64, field by field.
#[derive(Clone, Copy, Debug, PartialEq, Eq)]
pub struct Record {
    pub outcome: u16,
    pub value: i32,
    pub steps: u32,
    pub node: u16,
    pub context: u16,
    pub cells: u16,
}

impl Record {
    /// The record at the start of `bytes`; none where they are fewer than 20
    /// or its length or kind is not that of an answer.
    pub fn from_bytes(bytes: &[u8]) -> Option<Record> {
        let record: &[u8; ANSWER_BYTES] = bytes.first_chunk()?;
        let word = |at: usize| u16::from_le_bytes([record[at], record[at + 1]]);
        let double = |at: usize| word(at) as u32 | (word(at + 2) as u32) << 16;
        let starts = word(0) as usize == ANSWER_BYTES && word(2) == kinds::ANSWER;
        starts.then(|| Record {
            outcome: word(4),
            value: double(6) as i32,
            steps: double(10),
            node: word(14),
            context: word(16),
            cells: word(18),
        })
    }

    /// What the outcome and its fields say; none for an outcome that is in no
    /// record of a run.
    pub fn answer(&self) -> Option<Answer> {
        match self.outcome {
            numbers::NUMBER => Some(Answer::Number(self.value)),
            numbers::CONSTRUCTOR => Some(Answer::Constructor {
                tag: self.value as u16,
                node: self.node,
                context: self.context,
            }),
            number if numbers::is_refusal(number) => {
                Some(Answer::Refused(Refusal::new(number, self.value as u32)))
            }
            number => {
                let stop = Stop::ALL.into_iter().find(|stop| stop.number() == number);
                let mut faults = Fault::ALL.into_iter();
                stop.map(Answer::Stopped).or_else(|| {
                    let fault = faults.find(|fault| fault.number() == number);
                    fault.map(Answer::Fault)
                })
            }
        }
    }

    /// The typed form of the record; none for an outcome that is in no record
    /// of a run.
    pub fn ended(&self) -> Option<Ended> {
        Some(Ended {
            answer: self.answer()?,
            steps: self.steps,
            cells: self.cells,
        })
    }
}

#[cfg(test)]
mod tests {
    use super::*;

    /// The record of an outcome, with other fields that a fault has not.
    fn record(outcome: u16) -> Record {
        Record {
            outcome,
            value: 3,
            steps: 5,
            node: 7,
            context: 9,
            cells: 11,
        }
    }

    #[test]
    fn every_number_of_the_table_has_its_class() {
        for number in 0..=u16::MAX {
            let value = numbers::is_value(number);
            let expected = match record(number).answer() {
                Some(Answer::Number(_) | Answer::Constructor { .. }) => value,
                Some(Answer::Refused(refusal)) => {
                    numbers::is_refusal(number) && refusal == Refusal::new(number, 3)
                }
                Some(Answer::Stopped(stop)) => numbers::is_stop(number) && stop.number() == number,
                Some(Answer::Fault(fault)) => numbers::is_fault(number) && fault.number() == number,
                None => number > numbers::BAD_RANGE && !value,
            };
            assert!(expected, "number {number}");
            let classes = [
                value,
                numbers::is_refusal(number),
                numbers::is_stop(number),
                numbers::is_fault(number),
                numbers::is_none(number),
            ];
            let listed = number <= numbers::NO_VALUE || number == numbers::CONSTRUCTOR;
            let count = classes.into_iter().filter(|&class| class).count();
            assert_eq!(count, listed as usize, "number {number}");
        }
    }

    #[test]
    fn a_record_of_another_length_or_kind_is_none() {
        let mut bytes = vec![0; ANSWER_BYTES];
        bytes[0] = ANSWER_BYTES as u8;
        bytes[2] = kinds::ANSWER as u8;
        assert!(Record::from_bytes(&bytes).is_some());
        assert_eq!(Record::from_bytes(&bytes[..19]), None);
        for at in [0, 1, 2, 3] {
            let mut other = bytes.clone();
            other[at] ^= 1;
            assert_eq!(Record::from_bytes(&other), None);
        }
    }
}
