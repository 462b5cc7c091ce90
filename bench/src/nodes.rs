//! The nodes of an accepted translation, decoded once for the plain run.

use crate::plain::{two_bytes, Function, Index};
use zifnora::kinds::operators;
use zifnora::kinds::translation as kinds;

#[derive(Clone, Copy)]
pub enum Operator {
    Add,
    Subtract,
    Multiply,
    Divide,
    Less,
    Equal,
}

pub enum Node {
    Number(i32),
    Reading(u16),
    /// The formal's number, its function and its position there.
    Formal {
        formal: u16,
        function: u16,
        position: u16,
    },
    Select {
        node: u16,
        index: u16,
    },
    Operator {
        operator: Operator,
        left: u16,
        right: u16,
    },
    If {
        condition: u16,
        yes: u16,
        no: u16,
    },
    Call {
        label: u16,
        function: u16,
        body: u16,
    },
    Tuple {
        tag: u16,
        fields: Vec<u16>,
    },
    Case {
        scrutinee: u16,
        clauses: Vec<(u16, u16)>,
    },
}

/// A decoded translation.
pub struct Program {
    pub body: u16,
    /// The actuals of each formal.
    pub formals: Vec<Vec<u16>>,
    pub nodes: Vec<Node>,
}

/// Decodes an accepted translation.
pub fn decode(file: &[u8], index: &Index) -> Program {
    let formals = index.formals.iter();
    let nodes = index.nodes.iter();
    let places = places(&index.functions);
    Program {
        body: index.functions[0].body,
        formals: formals
            .map(|&at| fields(file, at as usize).collect())
            .collect(),
        nodes: nodes
            .map(|&at| node(file, at as usize, &index.functions, &places))
            .collect(),
    }
}

/// Function and position of each formal.
fn places(functions: &[Function]) -> Vec<(u16, u16)> {
    let numbered = (0..).zip(functions);
    let of_function = |(number, function): (u16, &Function)| {
        (0..function.parameters).map(move |position| (number, position))
    };
    numbered.flat_map(of_function).collect()
}

fn fields(file: &[u8], at: usize) -> impl Iterator<Item = u16> + '_ {
    let end = at + two_bytes(file, at) as usize;
    file[at + 4..end]
        .chunks_exact(2)
        .map(|pair| u16::from_le_bytes([pair[0], pair[1]]))
}

fn node(file: &[u8], at: usize, functions: &[Function], places: &[(u16, u16)]) -> Node {
    let field = |number: usize| two_bytes(file, at + 4 + 2 * number);
    match two_bytes(file, at + 2) {
        kinds::NUMBER => Node::Number((field(0) as u32 | (field(1) as u32) << 16) as i32),
        kinds::READING => Node::Reading(field(0)),
        kinds::FORMAL => {
            let (function, position) = places[field(0) as usize];
            Node::Formal {
                formal: field(0),
                function,
                position,
            }
        }
        kinds::SELECT => Node::Select {
            node: field(0),
            index: field(1),
        },
        kinds::OPERATOR => Node::Operator {
            operator: operator(field(0)),
            left: field(1),
            right: field(2),
        },
        kinds::IF => Node::If {
            condition: field(0),
            yes: field(1),
            no: field(2),
        },
        kinds::CALL => Node::Call {
            label: field(0),
            function: field(1),
            body: functions[field(1) as usize].body,
        },
        kinds::TUPLE => Node::Tuple {
            tag: field(0),
            fields: fields(file, at).skip(1).collect(),
        },
        kinds::CASE => Node::Case {
            scrutinee: field(0),
            clauses: (0..(two_bytes(file, at) as usize - 6) / 4)
                .map(|clause| (field(1 + 2 * clause), field(2 + 2 * clause)))
                .collect(),
        },
        kind => unreachable!("kind {kind} is no node's"),
    }
}

fn operator(code: u16) -> Operator {
    match code {
        operators::ADD => Operator::Add,
        operators::SUBTRACT => Operator::Subtract,
        operators::MULTIPLY => Operator::Multiply,
        operators::DIVIDE => Operator::Divide,
        operators::LESS => Operator::Less,
        operators::EQUAL => Operator::Equal,
        code => unreachable!("code {code} is no operator's"),
    }
}
