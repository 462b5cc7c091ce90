//! Typed sheets for the builder (document 02, request 11).

use crate::build_sheet::{Declared, Expr, Program};
use crate::kinds::sheet as kinds;

/// A whole sheet with types: 0 is that of numbers, the others are 1 to 64.
#[derive(Clone, Debug)]
pub struct TypedProgram {
    /// How many readings a run takes.
    pub readings: u16,
    /// Own type and field types of each constructor.
    pub constructors: Vec<(u16, Vec<u16>)>,
    /// Result type, parameter types and body of each function; function 0 is
    /// `result`.
    pub functions: Vec<(u16, Vec<u16>, Expr)>,
}

impl TypedProgram {
    /// The file, with the nodes of each function in post-order.
    pub fn encode(&self) -> Vec<u8> {
        self.declared().encode_ordered(|_| 0, false)
    }

    /// The file, with the nodes of each function in an order picked by
    /// `pick`, as in `Program::encode_shuffled`.
    pub fn encode_shuffled(&self, pick: impl FnMut(usize) -> usize) -> Vec<u8> {
        self.declared().encode_ordered(pick, true)
    }

    /// The same sheet with its types removed.
    pub fn untyped(&self) -> Program {
        let constructors = self.constructors.iter();
        let functions = self.functions.iter();
        Program {
            readings: self.readings,
            arities: constructors
                .map(|(_, fields)| fields.len() as u16)
                .collect(),
            functions: functions
                .map(|(_, parameters, body)| (parameters.len() as u16, body.clone()))
                .collect(),
        }
    }

    fn declared(&self) -> Declared<'_> {
        let constructors = self.constructors.iter().map(|(own, fields)| {
            let fields = [&[fields.len() as u16, *own], &fields[..]].concat();
            (kinds::TYPED_CONSTRUCTOR, fields)
        });
        let functions = self.functions.iter().map(|(result, parameters, body)| {
            let counts = [parameters.len() as u16, body.size() as u16, *result];
            let fields = [&counts, &parameters[..]].concat();
            (kinds::TYPED_FUNCTION, fields, body)
        });
        Declared {
            readings: self.readings,
            constructors: constructors.collect(),
            functions: functions.collect(),
        }
    }
}

#[cfg(test)]
mod tests {
    use super::*;
    use crate::build_sheet::{build, call, case, number, parameter, pattern, put_record};

    /// result = first(Pair(3, Pair(4, ..))), first(p) = case p of Pair(n, p) -> n;
    /// Pair is of type 5.
    fn first_of_pair() -> TypedProgram {
        let pair = |n, rest| build(0, vec![number(n), rest]);
        let none = || build(1, vec![]);
        let first = case(parameter(0), vec![(0, pattern(0))]);
        TypedProgram {
            readings: 2,
            constructors: vec![(5, vec![0, 5]), (5, vec![])],
            functions: vec![
                (0, vec![], call(1, vec![pair(3, pair(4, none()))])),
                (0, vec![5], first),
            ],
        }
    }

    #[test]
    fn types_stand_after_the_counts() {
        let mut declared = Vec::new();
        put_record(&mut declared, kinds::HEAD, &[2, 2, 2, 9]);
        put_record(&mut declared, kinds::TYPED_CONSTRUCTOR, &[2, 5, 0, 5]);
        put_record(&mut declared, kinds::TYPED_CONSTRUCTOR, &[0, 5]);
        put_record(&mut declared, kinds::TYPED_FUNCTION, &[0, 6, 0]);
        put_record(&mut declared, kinds::TYPED_FUNCTION, &[1, 3, 0, 5]);
        let file = first_of_pair().encode();
        assert_eq!(file[..declared.len()], declared);
    }

    #[test]
    fn nodes_are_those_of_the_untyped_sheet() {
        let typed = first_of_pair();
        let nodes = |file: Vec<u8>, declared: usize| file[declared..].to_vec();
        // Head, constructors and functions of both.
        let (typed_bytes, untyped_bytes) = (12 + 12 + 8 + 10 + 12, 12 + 2 * 6 + 2 * 8);
        let untyped = typed.untyped();
        assert_eq!(
            nodes(typed.encode(), typed_bytes),
            nodes(untyped.encode(), untyped_bytes)
        );
        let last = |bound: usize| bound - 1;
        assert_eq!(
            nodes(typed.encode_shuffled(last), typed_bytes),
            nodes(untyped.encode_shuffled(last), untyped_bytes)
        );
    }
}
