//! Faults in reading and checking a sheet.

use super::Faulty;
use crate::model::records::{two_bytes, Records};
use crate::model::rules;
use crate::model::sheet::{Node, Sheet};
use crate::model::{Refusal, TypeBehaviour};
use zifnora::numbers::{BAD_ARGUMENTS, BAD_TREE, OUT_OF_RANGE, OVERSIZE, TRUNCATED};
use zifnora::sizes::SHEET_BYTES;

/// Refuses the greatest size.
pub fn below_size(file: &[u8]) -> Result<(), Refusal> {
    if file.len() >= SHEET_BYTES {
        return Err(Refusal::new(OVERSIZE, 0));
    }
    Ok(())
}

/// Refuses a record that is cut short, whatever its kind and length.
pub fn whole(records: &Records) -> Result<(), Refusal> {
    let (number, left) = records.left();
    if left.len() < 4 || left.len() < two_bytes(left, 0) as usize {
        return Err(Refusal::new(TRUNCATED, number));
    }
    Ok(())
}

/// The record before the place that is refused.
pub fn previous_place(result: Result<(), Refusal>) -> Result<(), Refusal> {
    result.map_err(|refusal| Refusal::new(refusal.number, refusal.place - 1))
}

/// 7 in place of 5 where a node breaks both rules.
pub fn arguments_first(sheet: &Sheet, result: Result<(), Refusal>) -> Result<(), Refusal> {
    result.map_err(|refusal| {
        let both = refusal.number == OUT_OF_RANGE && {
            let node = refusal.place - sheet.record_of(0);
            rules::bad_arguments(sheet, &sheet.nodes[node as usize])
        };
        match both {
            true => Refusal::new(BAD_ARGUMENTS, refusal.place),
            false => refusal,
        }
    })
}

/// 5 and 7 of a typed sheet, but not 7 for the parameters of `result`.
pub fn typed_result_parameters(sheet: &Sheet, result: Result<(), Refusal>) -> Result<(), Refusal> {
    let mut without = sheet.clone();
    without.parameters[0] = 0;
    match sheet.types {
        Some(_) => rules::check_references(&without),
        None => result,
    }
}

/// The record after that of a node which is refused.
pub fn next_place(sheet: &Sheet, result: Result<(), Refusal>) -> Result<(), Refusal> {
    result.map_err(|refusal| {
        let node = refusal.place >= sheet.record_of(0);
        Refusal::new(refusal.number, refusal.place + node as u32)
    })
}

/// The clause order rule alone, by node.
pub fn clause_order(sheet: &Sheet) -> Result<(), Refusal> {
    for (number, node) in sheet.nodes.iter().enumerate() {
        match node {
            Node::Case { clauses, .. } if !rules::clauses_rise(clauses) => {
                return Err(Refusal::new(BAD_TREE, sheet.record_of(number)));
            }
            _ => (),
        }
    }
    Ok(())
}

/// How often each node is named as a child in its own function.
pub fn count_own_uses(sheet: &Sheet) -> Vec<u32> {
    let mut uses = vec![0; sheet.nodes.len()];
    for (number, node) in sheet.nodes.iter().enumerate() {
        node.each_child(|child| {
            let own = sheet.owners[child as usize] == sheet.owners[number];
            uses[child as usize] += own as u32;
        });
    }
    uses
}

/// The constructor of the clause around, in a scrutinee that of the first.
pub fn any_clause_around(sheet: &Sheet, parents: &[Option<usize>], node: usize) -> Option<u16> {
    rules::clause_around(sheet, parents, node).or_else(|| {
        let around = rules::case_around(sheet, parents, node)?;
        around.clauses.first().map(|clause| clause.0)
    })
}

/// 22 of a node before the first that is misgrown.
pub fn types_before_tree(
    faulty: &Faulty,
    sheet: &Sheet,
    result: Result<(), Refusal>,
) -> Result<(), Refusal> {
    let Err(refusal) = result else {
        return result;
    };
    let misgrown = (refusal.place - sheet.record_of(0)) as usize;
    let mut first = sheet.clone();
    first.nodes[misgrown..].fill(Node::Number(0));
    match faulty.check_types(&first) {
        Err(ill_typed) if ill_typed.place < refusal.place => Err(ill_typed),
        _ => result,
    }
}
