//! Answers and their record of kind 64.

use super::Refusal;
use zifnora::kinds::ANSWER;
use zifnora::numbers::{is_refusal, is_stop};

/// The answer of a run, in the fields of its record.
#[derive(Clone, Copy, Debug, PartialEq, Eq, Default)]
pub struct Answer {
    /// 0 number, 100 constructor, else the table's number.
    pub outcome: u16,
    /// Number, tag or a refusal's place; else 0.
    pub value: i32,
    pub steps: u32,
    pub node: u16,
    pub context: u16,
    pub cells: u16,
}

pub const RECORD: usize = 20;

impl Answer {
    pub fn refused(refusal: Refusal) -> Answer {
        Answer {
            outcome: refusal.number,
            value: refusal.place as i32,
            ..Answer::default()
        }
    }

    /// A number, a constructor or a run fault, which has to be the sheet's
    /// own answer.
    pub fn is_own(&self) -> bool {
        !is_refusal(self.outcome) && !is_stop(self.outcome)
    }

    /// The record of kind 64.
    pub fn record(&self) -> [u8; RECORD] {
        let mut record = Vec::new();
        record.extend_from_slice(&(RECORD as u16).to_le_bytes());
        record.extend_from_slice(&ANSWER.to_le_bytes());
        record.extend_from_slice(&self.outcome.to_le_bytes());
        record.extend_from_slice(&self.value.to_le_bytes());
        record.extend_from_slice(&self.steps.to_le_bytes());
        record.extend_from_slice(&self.node.to_le_bytes());
        record.extend_from_slice(&self.context.to_le_bytes());
        record.extend_from_slice(&self.cells.to_le_bytes());
        record.try_into().expect("20 bytes")
    }

    /// The answer in a record, if its length and kind are right.
    pub fn from_record(record: &[u8]) -> Option<Answer> {
        let two = |at: usize| u16::from_le_bytes([record[at], record[at + 1]]);
        let four = |at: usize| two(at) as u32 | (two(at + 2) as u32) << 16;
        if record.len() < RECORD || two(0) as usize != RECORD || two(2) != ANSWER {
            return None;
        }
        Some(Answer {
            outcome: two(4),
            value: four(6) as i32,
            steps: four(10),
            node: two(14),
            context: two(16),
            cells: two(18),
        })
    }
}
