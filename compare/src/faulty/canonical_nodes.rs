//! Faults in the order of the nodes of a sheet in canonical form, and in their
//! fields.

use super::fault::Fault;
use crate::model::canonical::{self, renumbered};
use crate::model::sheet::{Node, Sheet};
use zifnora::kinds::operators::ADD;

/// The nodes in the order that a fault gives them.
pub fn order(fault: Fault, sheet: &Sheet, right: impl Fn() -> Vec<u16>) -> Vec<u16> {
    let as_they_are = || (0..sheet.nodes.len() as u16).collect();
    match fault {
        Fault::CanonicalUnchanged => as_they_are(),
        Fault::CanonicalTypedUnchanged if sheet.types.is_some() => as_they_are(),
        Fault::CanonicalByHeight => by_height(sheet, right()),
        Fault::CanonicalNodeFirst => node_first(sheet),
        Fault::CanonicalMixed => mixed(sheet, &right()),
        Fault::CanonicalRunsExchanged => runs_exchanged(sheet, right()),
        Fault::CanonicalDeepLeft => deep_left(sheet, right()),
        Fault::CanonicalResultOnly => {
            let result = sheet.counts[0] as usize;
            let after = result as u16..sheet.nodes.len() as u16;
            right().into_iter().take(result).chain(after).collect()
        }
        _ => right(),
    }
}

/// The nodes of each function.
fn runs(sheet: &Sheet) -> Vec<std::ops::Range<usize>> {
    let mut end = 0;
    let counts = sheet.counts.iter().map(|&count| count as usize);
    counts
        .map(|count| {
            end += count;
            end - count..end
        })
        .collect()
}

/// How many nodes are below each node, one below the other.
fn heights(sheet: &Sheet) -> Vec<usize> {
    let mut heights = vec![0; sheet.nodes.len()];
    for (number, node) in sheet.nodes.iter().enumerate() {
        let children = canonical::children(node).into_iter();
        let highest = children.map(|child| heights[child as usize] + 1);
        heights[number] = highest.max().unwrap_or(0);
    }
    heights
}

/// Leaves first, then their parents, in each function.
fn by_height(sheet: &Sheet, right: Vec<u16>) -> Vec<u16> {
    let (mut order, heights) = (right, heights(sheet));
    for run in runs(sheet) {
        order[run].sort_by_key(|&node| heights[node as usize]);
    }
    order
}

/// The nodes of a function as they are where too many are one below the other.
fn deep_left(sheet: &Sheet, right: Vec<u16>) -> Vec<u16> {
    const DEEPEST: usize = 256;
    let (mut order, heights) = (right, heights(sheet));
    for run in runs(sheet) {
        if heights[run.end - 1] > DEEPEST {
            run.for_each(|at| order[at] = at as u16);
        }
    }
    order
}

/// Each node before its children.
fn node_first(sheet: &Sheet) -> Vec<u16> {
    let (mut order, mut left) = (Vec::new(), Vec::new());
    for &body in &sheet.bodies {
        left.push(body);
        while let Some(node) = left.pop() {
            order.push(node);
            let children = canonical::children(&sheet.nodes[node as usize]);
            left.extend(children.into_iter().rev());
        }
    }
    order
}

/// A node of each function in turn.
fn mixed(sheet: &Sheet, right: &[u16]) -> Vec<u16> {
    let runs = runs(sheet);
    let longest = runs.iter().map(ExactSizeIterator::len).max().unwrap_or(0);
    let turn = |turn: usize| {
        let nodes = runs.iter().filter_map(move |run| run.clone().nth(turn));
        nodes.map(|at| right[at])
    };
    (0..longest).flat_map(turn).collect()
}

/// The nodes of the first two functions exchanged that have as many parameters and
/// nodes.
fn runs_exchanged(sheet: &Sheet, right: Vec<u16>) -> Vec<u16> {
    let mut order = right;
    let runs = runs(sheet);
    let alike = |one: usize, other: usize| {
        sheet.parameters[one] == sheet.parameters[other] && sheet.counts[one] == sheet.counts[other]
    };
    let functions = 0..runs.len();
    let mut pairs = functions.flat_map(|one| (one + 1..runs.len()).map(move |other| (one, other)));
    if let Some((one, other)) = pairs.find(|&(one, other)| alike(one, other)) {
        for (at, there) in runs[one].clone().zip(runs[other].clone()) {
            order.swap(at, there);
        }
    }
    order
}

/// The children of a node in the order in which a fault writes them.
pub fn children(fault: Fault, node: &Node) -> Vec<u16> {
    let mut children = canonical::children(node);
    match (fault, node) {
        (Fault::CanonicalRightToLeft, _)
        | (Fault::CanonicalRightFirst, Node::Operator { .. })
        | (Fault::CanonicalArgumentsReversed, Node::Call { .. })
        | (Fault::CanonicalFieldsReversed, Node::Build { .. }) => children.reverse(),
        (Fault::CanonicalConditionLast, Node::If { .. })
        | (Fault::CanonicalClausesFirst, Node::Case { .. }) => children.rotate_left(1),
        (Fault::CanonicalClausesReversed, Node::Case { .. }) => children[1..].reverse(),
        (Fault::CanonicalByNumber, _) => children.sort(),
        (Fault::CanonicalByNumberDown, _) => children.sort_by(|one, other| other.cmp(one)),
        _ => {}
    }
    children
}

/// A node as a fault writes it, where `numbers` has the new number of each.
pub fn node(fault: Fault, sheet: &Sheet, node: u16, numbers: &[u16]) -> Node {
    let old = &sheet.nodes[node as usize];
    let last = canonical::children(old).last().copied();
    let mut written = renumbered(old, |child| match (fault, old) {
        (Fault::CanonicalReferenceLeft, _) if Some(child) == last => child,
        (Fault::CanonicalClauseReferenceLeft, Node::Case { scrutinee, .. })
            if child != *scrutinee =>
        {
            child
        }
        (Fault::CanonicalRelative, _) => numbers[child as usize] - first_node(sheet, node),
        (Fault::CanonicalReferenceIn8Bits, _) => numbers[child as usize] as u8 as u16,
        _ => numbers[child as usize],
    });
    // A number that is no node's stays.
    let like_a_node = |field: &mut u16| *field = *numbers.get(*field as usize).unwrap_or(field);
    match (fault, &mut written) {
        (Fault::CanonicalClauseRenumbered, Node::Case { clauses, .. }) => {
            clauses
                .iter_mut()
                .for_each(|clause| like_a_node(&mut clause.0));
        }
        (Fault::CanonicalCalleeRenumbered, Node::Call { function, .. }) => like_a_node(function),
        (Fault::CanonicalPositionRenumbered, Node::Parameter(position)) => like_a_node(position),
        (Fault::CanonicalOperandsExchanged, Node::Operator { left, right, .. }) => {
            std::mem::swap(left, right);
        }
        (Fault::CanonicalNumberIn16Bits, Node::Number(number)) => *number = *number as i16 as i32,
        _ => {}
    }
    written
}

/// The first node of the function of a node.
fn first_node(sheet: &Sheet, node: u16) -> u16 {
    let function = sheet.owners[node as usize] as usize;
    sheet.counts[..function].iter().sum()
}

/// The sheet with the operands of a sum exchanged where the left alone is a number.
pub fn numbers_right(sheet: &Sheet) -> Sheet {
    let is_number = |node: u16| matches!(sheet.nodes[node as usize], Node::Number(_));
    let mut other = sheet.clone();
    for node in &mut other.nodes {
        match node {
            Node::Operator { code, left, right }
                if *code == ADD && is_number(*left) && !is_number(*right) =>
            {
                std::mem::swap(left, right);
            }
            _ => {}
        }
    }
    other
}
