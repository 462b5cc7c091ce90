//! One sheet, one file (document 02, request 13): a sheet in canonical form.

use super::canonical_behaviour::CanonicalBehaviour;
use super::records::two_bytes;
use super::sheet::{Node, Sheet};
use super::Refusal;
use std::iter::once;
use zifnora::kinds::sheet as kinds;
use zifnora::numbers::SHORT_OUTPUT;

/// Writes an accepted sheet in canonical form; its length. The refusal of the
/// sheet's reader, "then 8 with place 0". "A refusal writes nothing."
pub fn canonical_sheet<B: CanonicalBehaviour>(
    behaviour: &B,
    file: &[u8],
    out: &mut [u8],
) -> Result<usize, Refusal> {
    let sheet = behaviour.read_sheet(file)?;
    if !behaviour.canonical_fits(file, out.len()) {
        return Err(Refusal::new(SHORT_OUTPUT, 0));
    }
    let written = behaviour.canonical(file, &sheet);
    out[..written.len()].copy_from_slice(&written);
    Ok(written.len())
}

/// "The output has exactly the input's length."
pub fn canonical_fits(file: &[u8], room: usize) -> bool {
    room >= file.len()
}

/// The sections as they are, and the nodes in their order with the numbers that
/// this order gives them.
pub fn canonical<B: CanonicalBehaviour>(behaviour: &B, file: &[u8], sheet: &Sheet) -> Vec<u8> {
    let order = behaviour.canonical_order(sheet);
    let mut numbers = vec![0; sheet.nodes.len()];
    for (number, &node) in order.iter().enumerate() {
        numbers[node as usize] = number as u16;
    }
    let mut written = behaviour.canonical_sections(file, sheet);
    for &node in &order {
        put_node(
            &mut written,
            &behaviour.canonical_node(sheet, node, &numbers),
        );
    }
    written
}

/// "Head, constructors and functions stay byte for byte": these.
pub fn sections<'a>(file: &'a [u8], sheet: &Sheet) -> &'a [u8] {
    let records = 1 + sheet.arities.len() + sheet.counts.len();
    let end = (0..records).fold(0, |at, _| at + two_bytes(file, at) as usize);
    &file[..end]
}

/// "Each function's nodes come in post-order", function by function: the numbers
/// that they had.
pub fn order<B: CanonicalBehaviour>(behaviour: &B, sheet: &Sheet) -> Vec<u16> {
    let mut order = Vec::with_capacity(sheet.nodes.len());
    for &body in &sheet.bodies {
        put_tree(behaviour, sheet, body, &mut order);
    }
    order
}

/// The trees of the children one after the other, then the node.
fn put_tree<B: CanonicalBehaviour>(behaviour: &B, sheet: &Sheet, node: u16, order: &mut Vec<u16>) {
    for child in behaviour.canonical_children(&sheet.nodes[node as usize]) {
        put_tree(behaviour, sheet, child, order);
    }
    order.push(node);
}

/// "Children left to right": "left, right; condition, then, else; arguments in
/// order; scrutinee first, then the clauses' nodes in order".
pub fn children(node: &Node) -> Vec<u16> {
    match node {
        Node::Number(_) | Node::Reading(_) | Node::Parameter(_) | Node::Pattern(_) => vec![],
        Node::Operator { left, right, .. } => vec![*left, *right],
        Node::If { condition, yes, no } => vec![*condition, *yes, *no],
        Node::Call { arguments, .. } | Node::Build { arguments, .. } => arguments.clone(),
        Node::Case { scrutinee, clauses } => {
            let nodes = clauses.iter().map(|clause| clause.1);
            once(*scrutinee).chain(nodes).collect()
        }
    }
}

/// The node with other numbers for its children, "all other fields unchanged".
pub fn renumbered(node: &Node, number: impl Fn(u16) -> u16) -> Node {
    let all = |children: &[u16]| children.iter().map(|&child| number(child)).collect();
    match node {
        Node::Number(_) | Node::Reading(_) | Node::Parameter(_) | Node::Pattern(_) => node.clone(),
        &Node::Operator { code, left, right } => Node::Operator {
            code,
            left: number(left),
            right: number(right),
        },
        &Node::If { condition, yes, no } => Node::If {
            condition: number(condition),
            yes: number(yes),
            no: number(no),
        },
        Node::Call {
            function,
            arguments,
        } => Node::Call {
            function: *function,
            arguments: all(arguments),
        },
        Node::Build {
            constructor,
            arguments,
        } => Node::Build {
            constructor: *constructor,
            arguments: all(arguments),
        },
        Node::Case { scrutinee, clauses } => {
            let clauses = clauses.iter();
            Node::Case {
                scrutinee: number(*scrutinee),
                clauses: clauses.map(|&(of, node)| (of, number(node))).collect(),
            }
        }
    }
}

/// Adds the record of a node.
pub fn put_node(file: &mut Vec<u8>, node: &Node) {
    let (kind, fields) = match node {
        Node::Number(number) => {
            let bits = *number as u32;
            (kinds::NUMBER, vec![bits as u16, (bits >> 16) as u16])
        }
        Node::Reading(reading) => (kinds::READING, vec![*reading]),
        Node::Parameter(position) => (kinds::PARAMETER, vec![*position]),
        Node::Pattern(position) => (kinds::PATTERN_VARIABLE, vec![*position]),
        Node::Operator { code, left, right } => (kinds::OPERATOR, vec![*code, *left, *right]),
        Node::If { condition, yes, no } => (kinds::IF, vec![*condition, *yes, *no]),
        Node::Call {
            function,
            arguments,
        } => (kinds::CALL, [&[*function], &arguments[..]].concat()),
        Node::Build {
            constructor,
            arguments,
        } => (kinds::BUILD, [&[*constructor], &arguments[..]].concat()),
        Node::Case { scrutinee, clauses } => {
            let pairs = clauses.iter().flat_map(|&(of, node)| [of, node]);
            (kinds::CASE, once(*scrutinee).chain(pairs).collect())
        }
    };
    let length = 4 + 2 * fields.len() as u16;
    for word in [length, kind].into_iter().chain(fields) {
        file.extend_from_slice(&word.to_le_bytes());
    }
}
