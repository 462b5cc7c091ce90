//! Equal trees of a sheet (document 02, request 4): nodes are equal trees
//! exactly if they have the same class.

use super::sheet::{Node, Sheet};
use super::Behaviour;
use std::collections::HashMap;

/// What a node counts as.
#[derive(Clone, Debug, PartialEq, Eq, Hash)]
pub struct Tree {
    /// The node, with the classes of its parts in place of their numbers.
    pub node: Node,
    /// The function of a parameter, the class of a pattern variable's
    /// scrutinee; else 0.
    pub place: u16,
}

/// The class of each node but cases, which are no part of any tree.
pub fn classes<B: Behaviour>(behaviour: &B, sheet: &Sheet) -> Vec<u16> {
    let mut classes = vec![0; sheet.nodes.len()];
    let mut known = HashMap::with_capacity(sheet.nodes.len());
    for number in order(sheet) {
        let tree = behaviour.tree(sheet, number, tree(sheet, number, &classes));
        let next = known.len() as u16;
        classes[number] = *known.entry(tree).or_insert(next);
    }
    classes
}

/// The nodes in an order in which a node comes after its parts, and a pattern
/// variable after its scrutinee, which may have a greater number: those of
/// scrutinees first.
fn order(sheet: &Sheet) -> Vec<usize> {
    let mut first = vec![false; sheet.nodes.len()];
    for (number, node) in sheet.nodes.iter().enumerate().rev() {
        match node {
            Node::Case { scrutinee, .. } => first[*scrutinee as usize] = true,
            _ if first[number] => node.each_child(|child| first[child as usize] = true),
            _ => {}
        }
    }
    let others = |number: &usize| !matches!(sheet.nodes[*number], Node::Case { .. });
    let (first, then): (Vec<usize>, Vec<usize>) = (0..sheet.nodes.len())
        .filter(others)
        .partition(|&number| first[number]);
    [first, then].concat()
}

fn tree(sheet: &Sheet, number: usize, classes: &[u16]) -> Tree {
    let node = &sheet.nodes[number];
    let owner = sheet.owners[number];
    let place = match node {
        Node::Parameter(_) => owner,
        Node::Pattern(_) => classes[sheet.scrutinee(owner) as usize],
        _ => 0,
    };
    let class = |&part: &u16| classes[part as usize];
    let node = match node {
        Node::Operator { code, left, right } => Node::Operator {
            code: *code,
            left: class(left),
            right: class(right),
        },
        Node::If { condition, yes, no } => Node::If {
            condition: class(condition),
            yes: class(yes),
            no: class(no),
        },
        Node::Call {
            function,
            arguments,
        } => Node::Call {
            function: *function,
            arguments: arguments.iter().map(class).collect(),
        },
        Node::Build {
            constructor,
            arguments,
        } => Node::Build {
            constructor: *constructor,
            arguments: arguments.iter().map(class).collect(),
        },
        other => other.clone(),
    };
    Tree { node, place }
}
