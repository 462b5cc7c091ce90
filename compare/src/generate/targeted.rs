//! Targeted damage: the records stay fine, single references, clause orders
//! and pattern positions are set to the nearest wrong (or other right) value.

use super::damage::{records, HEAD_BYTES};
use super::random::Random;
use zifnora::kinds::{sheet, translation};
use zifnora::sizes::MOST_TYPES;

/// Records of functions.
const FUNCTIONS: [u16; 3] = [
    sheet::FUNCTION,
    sheet::TYPED_FUNCTION,
    translation::FUNCTION,
];

#[derive(Clone, Copy, PartialEq)]
enum Class {
    Node,
    Function,
    Constructor,
    Reading,
    Parameter,
    Pattern,
    Formal,
    Type,
    Free,
}

/// What a field of a record of some kind refers to.
fn class(kind: u16, field: usize) -> Class {
    match (kind, field) {
        (sheet::READING | translation::READING, _) => Class::Reading,
        (sheet::PARAMETER, _) => Class::Parameter,
        (sheet::PATTERN_VARIABLE, _) => Class::Pattern,
        (translation::FORMAL, _) => Class::Formal,
        (translation::SELECT, 0) => Class::Node,
        (sheet::IF | translation::IF | translation::FORMAL_LIST, _) => Class::Node,
        (sheet::OPERATOR | translation::OPERATOR, 1 | 2) => Class::Node,
        (sheet::CALL, 0) | (translation::CALL, 1) => Class::Function,
        (sheet::BUILD, 0) => Class::Constructor,
        (sheet::CALL | sheet::BUILD | translation::TUPLE, 1..) => Class::Node,
        (sheet::CASE | translation::CASE, _) if field % 2 == 0 => Class::Node,
        (sheet::CASE, _) => Class::Constructor,
        (sheet::TYPED_CONSTRUCTOR, 1..) | (sheet::TYPED_FUNCTION, 2..) => Class::Type,
        _ => Class::Free,
    }
}

/// Whether a field of a record of some kind names a node.
pub(super) fn names_node(kind: u16, field: usize) -> bool {
    class(kind, field) == Class::Node
}

/// A file with the starts of its records and the counts of its head.
struct Parts<'a> {
    file: &'a mut Vec<u8>,
    records: Vec<(usize, usize)>,
    head: [usize; 4],
}

/// Breaks one to three rules of a well-formed sheet or translation.
pub fn break_rules(random: &mut Random, file: &mut Vec<u8>) {
    let records = records(file);
    if records.is_empty() || records[0].1 != HEAD_BYTES {
        return;
    }
    let mut head = [0; 4];
    for (at, count) in head.iter_mut().enumerate() {
        *count = u16::from_le_bytes([file[4 + 2 * at], file[5 + 2 * at]]) as usize;
    }
    let mut parts = Parts {
        file,
        records,
        head,
    };
    for _ in 0..random.pick(&[1, 1, 1, 2, 2, 3]) {
        match random.below(14) {
            0 => parts.clause_order(random),
            1 => parts.pattern_somewhere(random),
            2 => parts.pattern_position(random),
            3 => parts.boundary(random),
            4 => parts.two_faults(random),
            5 => parts.case_elsewhere(random),
            6 | 7 => parts.parameters(random),
            _ => parts.reference(random),
        }
    }
}

impl Parts<'_> {
    fn kind(&self, record: usize) -> u16 {
        let at = self.records[record].0;
        u16::from_le_bytes([self.file[at + 2], self.file[at + 3]])
    }

    fn set_kind(&mut self, record: usize, kind: u16) {
        let at = self.records[record].0;
        self.file[at + 2..at + 4].copy_from_slice(&kind.to_le_bytes());
    }

    fn fields(&self, record: usize) -> usize {
        self.records[record].1 / 2 - 2
    }

    fn get(&self, record: usize, field: usize) -> u16 {
        let at = self.records[record].0 + 4 + 2 * field;
        u16::from_le_bytes([self.file[at], self.file[at + 1]])
    }

    fn set(&mut self, record: usize, field: usize, value: u16) {
        let at = self.records[record].0 + 4 + 2 * field;
        self.file[at..at + 2].copy_from_slice(&value.to_le_bytes());
    }

    /// A random record among those of the given kinds.
    fn some(&self, random: &mut Random, kinds: &[u16]) -> Option<usize> {
        let all: Vec<usize> = (0..self.records.len())
            .filter(|&record| kinds.contains(&self.kind(record)))
            .collect();
        (!all.is_empty()).then(|| random.pick(&all))
    }

    /// The first number that a reference of a class may not have.
    fn bound(&self, class: Class) -> usize {
        match class {
            Class::Node => self.head[3],
            Class::Function => self.head[2],
            Class::Constructor | Class::Formal => self.head[1],
            Class::Reading => self.head[0],
            Class::Parameter | Class::Pattern => 8,
            Class::Type => MOST_TYPES + 1,
            Class::Free => 65_536,
        }
    }

    /// Sets one reference to a neighbour, another right one, or a bound.
    fn reference(&mut self, random: &mut Random) {
        for _ in 0..20 {
            let record = random.between(1, self.records.len() - 1);
            if self.fields(record) == 0 {
                continue;
            }
            let field = random.below(self.fields(record));
            let class = class(self.kind(record), field);
            if class != Class::Free {
                self.set_reference(random, record, field, class);
                return;
            }
        }
    }

    fn set_reference(&mut self, random: &mut Random, record: usize, field: usize, class: Class) {
        let old = self.get(record, field);
        let bound = self.bound(class);
        let value = match random.below(8) {
            0 => bound as u16,
            1 => (bound as u16).wrapping_sub(1),
            2 => old.wrapping_add(1),
            3 => old.wrapping_sub(1),
            4 => 65_535,
            _ => random.below(bound) as u16,
        };
        self.set(record, field, value);
    }

    /// Exchanges two clause constructors of a case, or makes them equal.
    fn clause_order(&mut self, random: &mut Random) {
        let Some(record) = self.some(random, &[sheet::CASE, translation::CASE]) else {
            return;
        };
        let clauses = (self.fields(record) - 1) / 2;
        let (one, two) = (random.below(clauses), random.below(clauses));
        let (first, second) = (self.get(record, 1 + 2 * one), self.get(record, 1 + 2 * two));
        self.set(record, 1 + 2 * one, second);
        if random.chance(50) {
            self.set(record, 1 + 2 * two, first);
        }
    }

    /// Turns a reading or parameter into a pattern variable.
    fn pattern_somewhere(&mut self, random: &mut Random) {
        if let Some(record) = self.some(random, &[sheet::READING, sheet::PARAMETER]) {
            self.set_kind(record, sheet::PATTERN_VARIABLE);
            self.set(record, 0, random.below(3) as u16);
        }
    }

    fn pattern_position(&mut self, random: &mut Random) {
        if let Some(record) = self.some(
            random,
            &[
                sheet::PATTERN_VARIABLE,
                sheet::PATTERN_VARIABLE,
                sheet::CONSTRUCTOR,
                sheet::TYPED_CONSTRUCTOR,
            ],
        ) {
            let old = self.get(record, 0) as usize;
            let value = random.pick(&[old + 1, old + 2, old.saturating_sub(1), 0, 7, 8]);
            self.set(record, 0, value as u16);
        }
    }

    /// Moves the boundary between two functions, so that bodies change.
    fn boundary(&mut self, random: &mut Random) {
        let Some(record) = self.some(random, &FUNCTIONS) else {
            return;
        };
        let next = record + 1;
        if next >= self.records.len() || self.kind(next) != self.kind(record) {
            return;
        }
        // The node count, and of a translation now and then the parameter count.
        let parameters = self.kind(record) == translation::FUNCTION && random.chance(50);
        let field = match self.kind(record) {
            translation::FUNCTION => parameters as usize,
            _ => 1,
        };
        let least = !parameters as u16;
        let (low, high) = (self.get(record, field), self.get(next, field));
        if random.chance(50) && high > least {
            self.set(record, field, low.wrapping_add(1));
            self.set(next, field, high - 1);
        } else if low > least {
            self.set(record, field, low - 1);
            self.set(next, field, high.wrapping_add(1));
        }
    }

    /// Sets a function's parameter count to a neighbour or a bound.
    fn parameters(&mut self, random: &mut Random) {
        let Some(record) = self.some(random, &FUNCTIONS) else {
            return;
        };
        let field = (self.kind(record) == translation::FUNCTION) as usize;
        let old = self.get(record, field);
        let value = random.pick(&[old.wrapping_add(1), old.wrapping_sub(1), 0, 8, 9, 9, 16]);
        self.set(record, field, value);
    }

    /// A wrong number of arguments and a reference out of range at once.
    fn two_faults(&mut self, random: &mut Random) {
        let Some(record) = self.some(random, &[sheet::CALL, sheet::BUILD]) else {
            return;
        };
        let target = class(self.kind(record), 0);
        let other = random.below(self.bound(target)) as u16;
        self.set(record, 0, other);
        if self.fields(record) > 1 {
            let field = random.between(1, self.fields(record) - 1);
            let far = self.head[3] + random.below(3);
            self.set(record, field, far as u16);
        }
    }

    /// Turns an if (10 bytes) into a case of one clause.
    fn case_elsewhere(&mut self, random: &mut Random) {
        let Some(record) = self.some(random, &[sheet::IF, translation::IF]) else {
            return;
        };
        let case = match self.kind(record) {
            sheet::IF => sheet::CASE,
            _ => translation::CASE,
        };
        self.set_kind(record, case);
        let constructor = random.below(self.head[1].max(1)) as u16;
        self.set(record, 1, constructor);
    }
}
