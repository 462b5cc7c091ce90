//! Records: splitting a file into records, with the checks that need one
//! record alone (1, 3).

use super::Refusal;
use zifnora::kinds::{operators::EQUAL, sheet, translation};
use zifnora::numbers::{BAD_RECORD, TRUNCATED};

/// Lengths that a kind may have: least, step, greatest (step 0: fixed).
fn lengths(kind: u16) -> Option<(usize, usize, usize)> {
    Some(match kind {
        sheet::HEAD | translation::HEAD => (12, 0, 12),
        sheet::CONSTRUCTOR => (6, 0, 6),
        sheet::FUNCTION | translation::FUNCTION => (8, 0, 8),
        sheet::TYPED_CONSTRUCTOR => (8, 2, 24),
        sheet::TYPED_FUNCTION => (10, 2, 26),
        translation::FORMAL_LIST => (4, 2, 2052),
        sheet::NUMBER | translation::NUMBER => (8, 0, 8),
        sheet::READING | translation::READING => (6, 0, 6),
        sheet::PARAMETER | sheet::PATTERN_VARIABLE | translation::FORMAL => (6, 0, 6),
        sheet::OPERATOR | translation::OPERATOR => (10, 0, 10),
        sheet::IF | translation::IF => (10, 0, 10),
        sheet::CALL | sheet::BUILD | translation::TUPLE => (6, 2, 22),
        sheet::CASE | translation::CASE => (10, 4, 262),
        translation::SELECT | translation::CALL => (8, 0, 8),
        _ => return None,
    })
}

fn length_fits(kind: u16, length: usize) -> bool {
    match lengths(kind) {
        None => false,
        Some((least, 0, _)) => length == least,
        Some((least, step, greatest)) => {
            length >= least && length <= greatest && (length - least) % step == 0
        }
    }
}

/// One whole record; its fields are numbers of two bytes.
pub struct Record<'a> {
    pub number: u32,
    pub kind: u16,
    fields: &'a [u8],
}

impl Record<'_> {
    pub fn field(&self, at: usize) -> u16 {
        two_bytes(self.fields, 2 * at)
    }

    /// The fields from one on.
    pub fn fields(&self, from: usize) -> Vec<u16> {
        self.fields[2 * from..]
            .chunks_exact(2)
            .map(|field| two_bytes(field, 0))
            .collect()
    }

    /// The signed 32-bit field of a number.
    pub fn signed(&self) -> i32 {
        (self.field(0) as u32 | (self.field(1) as u32) << 16) as i32
    }

    /// The clauses of a case: pairs of a constructor and a node.
    pub fn clauses(&self) -> Vec<(u16, u16)> {
        self.fields[2..]
            .chunks_exact(4)
            .map(|clause| (two_bytes(clause, 0), two_bytes(clause, 2)))
            .collect()
    }
}

/// Takes the records of a file one after another.
pub struct Records<'a> {
    file: &'a [u8],
    at: usize,
    number: u32,
}

/// The number in two bytes.
pub fn two_bytes(bytes: &[u8], at: usize) -> u16 {
    u16::from_le_bytes([bytes[at], bytes[at + 1]])
}

impl<'a> Records<'a> {
    pub fn new(file: &'a [u8]) -> Records<'a> {
        Records {
            file,
            at: 0,
            number: 0,
        }
    }

    /// The next record's number, and what is left of the file.
    pub fn left(&self) -> (u32, &'a [u8]) {
        (self.number, &self.file[self.at..])
    }

    /// The next record's kind; none where it has no four bytes.
    pub fn next_kind(&self) -> Option<u16> {
        let (_, left) = self.left();
        (left.len() >= 4).then(|| two_bytes(left, 2))
    }

    /// The next record, which has to be of one of the kinds due.
    pub fn next(&mut self, due: &[u16]) -> Result<Record<'a>, Refusal> {
        let refuse = |number| Err(Refusal::new(number, self.number));
        let (_, left) = self.left();
        if left.len() < 4 {
            return refuse(TRUNCATED);
        }
        let length = two_bytes(left, 0) as usize;
        let kind = two_bytes(left, 2);
        if !due.contains(&kind) || !length_fits(kind, length) {
            return refuse(BAD_RECORD);
        }
        if left.len() < length {
            return refuse(TRUNCATED);
        }
        let record = Record {
            number: self.number,
            kind,
            fields: &left[4..length],
        };
        let operator = kind == sheet::OPERATOR || kind == translation::OPERATOR;
        if operator && record.field(0) > EQUAL {
            return refuse(BAD_RECORD);
        }
        self.at += length;
        self.number += 1;
        Ok(record)
    }

    /// After the last record due: no byte may be left over.
    pub fn finish(&self) -> Result<(), Refusal> {
        if self.at == self.file.len() {
            return Ok(());
        }
        Err(Refusal::new(BAD_RECORD, self.number))
    }
}

/// Owners of nodes: functions own consecutive runs of the given sizes.
pub fn owners(counts: &[u16]) -> Vec<u16> {
    let mut owners = Vec::new();
    for (function, &count) in counts.iter().enumerate() {
        owners.extend(std::iter::repeat_n(function as u16, count as usize));
    }
    owners
}

/// Bodies: the last node of each function's run.
pub fn bodies(counts: &[u16]) -> Vec<u16> {
    let mut end = 0;
    counts
        .iter()
        .map(|&count| {
            end += count;
            end - 1
        })
        .collect()
}
