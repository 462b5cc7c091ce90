//! A plain reader to measure against: one pass over a translation checks it
//! and notes where its formals and nodes start.

use zifnora::kinds::operators::EQUAL;
use zifnora::kinds::translation as kinds;
use zifnora::sizes::{
    MOST_FIELDS, MOST_FORMALS, MOST_FUNCTIONS, MOST_NODES, MOST_READINGS, TRANSLATION_BYTES,
};

const HEAD_BYTES: usize = 12;
const FUNCTION_BYTES: usize = 8;

/// Starts of formals and nodes, and the functions.
pub struct Index {
    pub formals: Vec<u32>,
    pub nodes: Vec<u32>,
    pub functions: Vec<Function>,
}

#[derive(Clone, Copy)]
pub struct Function {
    /// The last node.
    pub body: u16,
    pub parameters: u16,
}

#[derive(Clone, Copy)]
struct Counts {
    readings: usize,
    formals: usize,
    functions: usize,
    nodes: usize,
}

pub fn two_bytes(file: &[u8], at: usize) -> u16 {
    u16::from_le_bytes([file[at], file[at + 1]])
}

/// Checks the file and makes the index; none where it is refused.
pub fn accept(file: &[u8]) -> Option<Index> {
    let counts = head(file)?;
    let mut index = Index {
        formals: Vec::with_capacity(counts.formals),
        nodes: Vec::with_capacity(counts.nodes),
        functions: functions(file, counts)?,
    };
    let mut at = HEAD_BYTES + FUNCTION_BYTES * counts.functions;
    for _ in 0..counts.formals {
        let length = record(file, at, actuals_length)?;
        let mut actuals = (at + 4..at + length).step_by(2);
        if actuals.any(|field| two_bytes(file, field) as usize >= counts.nodes) {
            return None;
        }
        index.formals.push(at as u32);
        at += length;
    }
    for _ in 0..counts.nodes {
        let length = record(file, at, node_length)?;
        if !node_refers(&file[at..at + length], counts) {
            return None;
        }
        index.nodes.push(at as u32);
        at += length;
    }
    (at == file.len()).then_some(index)
}

fn functions(file: &[u8], counts: Counts) -> Option<Vec<Function>> {
    let mut functions = Vec::with_capacity(counts.functions);
    let (mut nodes, mut formals) = (0, 0);
    for function in 0..counts.functions {
        let at = HEAD_BYTES + FUNCTION_BYTES * function;
        record(file, at, function_length)?;
        let [count, parameters] = [4, 6].map(|field| two_bytes(file, at + field) as usize);
        if count == 0 || parameters > MOST_FIELDS {
            return None;
        }
        nodes += count;
        formals += parameters;
        functions.push(Function {
            body: (nodes - 1) as u16,
            parameters: parameters as u16,
        });
    }
    (nodes == counts.nodes && formals == counts.formals).then_some(functions)
}

fn head(file: &[u8]) -> Option<Counts> {
    let starts = file.len() <= TRANSLATION_BYTES && file.len() >= HEAD_BYTES;
    if !starts || two_bytes(file, 0) as usize != HEAD_BYTES || two_bytes(file, 2) != kinds::HEAD {
        return None;
    }
    let [readings, formals, functions, nodes] =
        [4, 6, 8, 10].map(|at| two_bytes(file, at) as usize);
    let counts = Counts {
        readings,
        formals,
        functions,
        nodes,
    };
    let ranges = readings <= MOST_READINGS && formals <= MOST_FORMALS;
    let from_one = (1..=MOST_FUNCTIONS).contains(&functions) && (1..=MOST_NODES).contains(&nodes);
    (ranges && from_one).then_some(counts)
}

/// The length of the record at a place, where it is whole and fits.
fn record(file: &[u8], at: usize, fits: impl Fn(u16, usize) -> bool) -> Option<usize> {
    let left = file.len() - at;
    if left < 4 {
        return None;
    }
    let length = two_bytes(file, at) as usize;
    (fits(two_bytes(file, at + 2), length) && length <= left).then_some(length)
}

fn function_length(kind: u16, length: usize) -> bool {
    kind == kinds::FUNCTION && length == FUNCTION_BYTES
}

fn actuals_length(kind: u16, length: usize) -> bool {
    kind == kinds::FORMAL_LIST && (4..=2052).contains(&length) && length % 2 == 0
}

fn node_length(kind: u16, length: usize) -> bool {
    match kind {
        kinds::NUMBER | kinds::SELECT | kinds::CALL => length == 8,
        kinds::READING | kinds::FORMAL => length == 6,
        kinds::OPERATOR | kinds::IF => length == 10,
        kinds::TUPLE => (6..=22).contains(&length) && length % 2 == 0,
        kinds::CASE => (10..=262).contains(&length) && length % 4 == 2,
        _ => false,
    }
}

fn node_refers(record: &[u8], counts: Counts) -> bool {
    let field = |number: usize| two_bytes(record, 4 + 2 * number) as usize;
    let fields = (record.len() - 4) / 2;
    let node = |number: usize| field(number) < counts.nodes;
    match two_bytes(record, 2) {
        kinds::READING => field(0) < counts.readings,
        kinds::FORMAL => field(0) < counts.formals,
        kinds::SELECT => node(0),
        kinds::OPERATOR => field(0) <= EQUAL as usize && node(1) && node(2),
        kinds::IF => node(0) && node(1) && node(2),
        kinds::CALL => field(1) < counts.functions,
        kinds::TUPLE => (1..fields).all(node),
        kinds::CASE => (0..fields).step_by(2).all(node),
        // A number.
        _ => true,
    }
}
