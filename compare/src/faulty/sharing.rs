//! Faults in the labels of calls.

use super::fault::Fault;
use crate::model::sheet::{self, Sheet};
use crate::model::translation::{Node, Translation};
use crate::model::trees::Tree;

/// The place of `label` among those seen before it, itself included.
fn place(seen: &mut Vec<u16>, label: u16) -> u16 {
    let known = seen.iter().position(|&other| other == label);
    let place = known.unwrap_or_else(|| {
        seen.push(label);
        seen.len() - 1
    });
    place as u16
}

/// Labels from 0 in each function.
pub fn restart_labels(mut translation: Translation) -> Translation {
    let functions = translation.counts.len();
    let mut nodes = translation.nodes.iter_mut();
    for &count in &translation.counts {
        let mut seen = vec![vec![]; functions];
        for node in nodes.by_ref().take(count as usize) {
            if let Node::Call { label, function } = node {
                *label = place(&mut seen[*function as usize], *label);
            }
        }
    }
    translation
}

/// A new label is the number of calls met, those that share one included.
pub fn skip_labels(mut translation: Translation) -> Translation {
    let functions = translation.counts.len();
    let (mut given, mut met) = (vec![vec![]; functions], vec![0; functions]);
    for node in &mut translation.nodes {
        if let Node::Call { label, function } = node {
            let callee = *function as usize;
            if *label as usize == given[callee].len() {
                given[callee].push(met[callee]);
            }
            *label = given[callee][*label as usize];
            met[callee] += 1;
        }
    }
    translation
}

/// The formals list the arguments of the last call with a label.
pub fn list_last_calls(sheet: &Sheet, mut translation: Translation) -> Translation {
    for (node, translated) in sheet.nodes.iter().zip(&translation.nodes) {
        let (sheet::Node::Call { arguments, .. }, Node::Call { label, function }) =
            (node, translated)
        else {
            continue;
        };
        let before = &sheet.parameters[..*function as usize];
        let first: u16 = before.iter().sum();
        let formals = &mut translation.formals[first as usize..];
        for (formal, &argument) in formals.iter_mut().zip(arguments) {
            formal[*label as usize] = argument;
        }
    }
    translation
}

/// What a fault takes a node for where trees are compared.
pub fn wrong_tree(fault: Fault, sheet: &Sheet, number: usize, mut tree: Tree) -> Tree {
    use sheet::Node::{Call, Parameter, Pattern};
    let owner = sheet.owners[number];
    match (fault, &mut tree.node) {
        (Fault::FunctionsShare, Call { function, .. }) => *function = 0,
        (Fault::CallersApart, Call { .. }) => tree.place = owner,
        (Fault::NoArgumentsApart, Call { arguments, .. }) if arguments.is_empty() => {
            tree.place = number as u16;
        }
        (Fault::ParameterOfAnyFunction, Parameter(_)) => tree.place = 0,
        (Fault::ParameterAtAnyPosition, Parameter(position)) => *position = 0,
        (Fault::PatternOfAnyScrutinee, Pattern(_)) => tree.place = 0,
        (Fault::PatternOfOneFunction, Pattern(_)) => tree.place = owner,
        (Fault::ScrutineeAboveApart, Pattern(_)) if number < sheet.scrutinee(owner) as usize => {
            tree.place = number as u16;
        }
        _ => {}
    }
    tree
}
