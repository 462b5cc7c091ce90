//! The checks of a sheet that need more than one record: 5 and 7 record by
//! record, then 6 by node (child, case and clause order rules), then 6 by
//! node (pattern rules).

use super::sheet::{Node, Sheet};
use super::{Behaviour, Refusal};
use zifnora::numbers::{BAD_ARGUMENTS, BAD_TREE, OUT_OF_RANGE};

/// 5 and 7. Head and constructor records hold no reference.
pub fn check_references(sheet: &Sheet) -> Result<(), Refusal> {
    if sheet.parameters[0] != 0 {
        return Err(Refusal::new(BAD_ARGUMENTS, 1 + sheet.arities.len() as u32));
    }
    for (number, node) in sheet.nodes.iter().enumerate() {
        if out_of_range(sheet, number, node) {
            return Err(Refusal::new(OUT_OF_RANGE, sheet.record_of(number)));
        }
        if bad_arguments(sheet, node) {
            return Err(Refusal::new(BAD_ARGUMENTS, sheet.record_of(number)));
        }
    }
    Ok(())
}

/// A reference or a parameter position is out of range.
fn out_of_range(sheet: &Sheet, number: usize, node: &Node) -> bool {
    let constructors = sheet.arities.len();
    let own = match node {
        Node::Reading(reading) => *reading >= sheet.readings,
        Node::Parameter(position) => *position >= sheet.parameters[sheet.owners[number] as usize],
        Node::Call { function, .. } => *function as usize >= sheet.parameters.len(),
        Node::Build { constructor, .. } => *constructor as usize >= constructors,
        Node::Case { clauses, .. } => clauses
            .iter()
            .any(|clause| clause.0 as usize >= constructors),
        _ => false,
    };
    own || node.any_child(|child| child as usize >= sheet.nodes.len())
}

/// The number of arguments is not that of the function or constructor.
pub fn bad_arguments(sheet: &Sheet, node: &Node) -> bool {
    let (due, arguments) = match node {
        Node::Call {
            function,
            arguments,
        } => (sheet.parameters.get(*function as usize), arguments),
        Node::Build {
            constructor,
            arguments,
        } => (sheet.arities.get(*constructor as usize), arguments),
        _ => return false,
    };
    due.is_some_and(|&due| due as usize != arguments.len())
}

/// 6: child, case and clause order rules, by node.
pub fn check_tree<B: Behaviour>(behaviour: &B, sheet: &Sheet) -> Result<(), Refusal> {
    let uses = behaviour.count_uses(sheet);
    for (number, node) in sheet.nodes.iter().enumerate() {
        let owner = sheet.owners[number];
        let body = sheet.bodies[owner as usize] as usize == number;
        let bad_child = node.any_child(|child| {
            let child = child as usize;
            child >= number || sheet.owners[child] != owner
        });
        let bad_use = !body && uses[number] != 1;
        let bad_case = match node {
            Node::Case { clauses, .. } => !body || !behaviour.clauses_rise(clauses),
            _ => false,
        };
        if bad_child || bad_use || bad_case {
            return Err(Refusal::new(BAD_TREE, sheet.record_of(number)));
        }
    }
    Ok(())
}

/// How often each node is named as a child, in the whole sheet.
pub fn count_uses(sheet: &Sheet) -> Vec<u32> {
    let mut uses = vec![0; sheet.nodes.len()];
    for node in &sheet.nodes {
        node.each_child(|child| uses[child as usize] += 1);
    }
    uses
}

/// Clause constructors of a case rise strictly.
pub fn clauses_rise(clauses: &[(u16, u16)]) -> bool {
    clauses.windows(2).all(|pair| pair[0].0 < pair[1].0)
}

/// 6: pattern rules, by node.
pub fn check_patterns<B: Behaviour>(behaviour: &B, sheet: &Sheet) -> Result<(), Refusal> {
    let parents = parents(sheet);
    for (number, node) in sheet.nodes.iter().enumerate() {
        let Node::Pattern(position) = node else {
            continue;
        };
        let constructor = behaviour.clause_around(sheet, &parents, number);
        let arity = constructor.map(|constructor| sheet.arities[constructor as usize]);
        if !arity.is_some_and(|arity| behaviour.position_fits(*position, arity)) {
            return Err(Refusal::new(BAD_TREE, sheet.record_of(number)));
        }
    }
    Ok(())
}

/// A pattern variable is below its constructor's arity.
pub fn position_fits(position: u16, arity: u16) -> bool {
    position < arity
}

/// The parent of each node: the last node that has it as a child.
pub fn parents(sheet: &Sheet) -> Vec<Option<usize>> {
    let mut parents = vec![None; sheet.nodes.len()];
    for (number, node) in sheet.nodes.iter().enumerate() {
        node.each_child(|child| parents[child as usize] = Some(number));
    }
    parents
}

/// The constructor of the clause that a node stands in; none in a scrutinee.
pub fn clause_around(sheet: &Sheet, parents: &[Option<usize>], node: usize) -> Option<u16> {
    let around = case_around(sheet, parents, node)?;
    if around.scrutinee == around.child {
        return None;
    }
    let mut clauses = around.clauses.iter();
    let clause = clauses.find(|clause| clause.1 == around.child);
    clause.map(|clause| clause.0)
}

/// The case above a node, and the child of it that the node is or stands in.
pub struct CaseAround<'a> {
    pub scrutinee: u16,
    pub clauses: &'a [(u16, u16)],
    pub child: u16,
}

pub fn case_around<'a>(
    sheet: &'a Sheet,
    parents: &[Option<usize>],
    node: usize,
) -> Option<CaseAround<'a>> {
    let mut child = node;
    while let Some(parent) = parents[child] {
        if let Node::Case { scrutinee, clauses } = &sheet.nodes[parent] {
            return Some(CaseAround {
                scrutinee: *scrutinee,
                clauses,
                child: child as u16,
            });
        }
        child = parent;
    }
    None
}
